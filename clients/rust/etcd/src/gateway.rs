//! Requests to the JSON gateway of etcd.

use camp::LogError;
use serde_json::Value;
use std::io::{BufReader, Read};
use std::time::Duration;
use ureq::{Agent, AgentBuilder, Error, Response};

/// The endpoints of etcd and whose turn it is, and the prefix of the keys.
#[derive(Clone)]
pub(crate) struct Gateway {
    agent: Agent,
    endpoints: Vec<String>,
    turn: usize,
    prefix: String,
}

impl Gateway {
    pub(crate) fn new(endpoints: &[impl AsRef<str>], prefix: &str, timeout: Duration) -> Gateway {
        Gateway {
            agent: agent(timeout),
            endpoints: endpoints.iter().map(|it| it.as_ref().into()).collect(),
            turn: 0,
            prefix: prefix.to_owned(),
        }
    }

    // The same endpoints and keys with another timeout.
    pub(crate) fn with_timeout(&self, timeout: Duration) -> Gateway {
        Gateway {
            agent: agent(timeout),
            ..self.clone()
        }
    }

    // A key of the log, in base 64.
    pub(crate) fn key(&self, rest: &str) -> String {
        base64::encode(format!("{}/{rest}", self.prefix))
    }

    // The response of the endpoint whose turn it is; else what the endpoint says of an error, or nothing.
    pub(crate) fn post(&self, path: &str, asked: &Value) -> Result<Response, String> {
        let endpoint = &self.endpoints[self.turn % self.endpoints.len()];
        self.agent
            .post(&format!("http://{endpoint}/v3/{path}"))
            .set("Content-Type", "application/json")
            .send_string(&asked.to_string())
            .map_err(|error| match error {
                Error::Status(_, response) => text(response),
                Error::Transport(_) => String::new(),
            })
    }

    // The same, as a value.
    pub(crate) fn post_once(&self, path: &str, asked: &Value) -> Result<Value, String> {
        let response = self.post(path, asked)?;
        serde_json::from_reader(BufReader::new(response.into_reader())).map_err(|_| String::new())
    }

    // An answer, from whichever endpoint gives one.
    pub(crate) fn ask(&mut self, path: &str, asked: &Value) -> Result<Value, LogError> {
        for _ in 0..4 * self.endpoints.len() {
            if let Ok(answer) = self.post_once(path, asked) {
                return Ok(answer);
            }
            self.take_next();
        }
        Err(LogError::Away("no endpoint of etcd answers".to_owned()))
    }

    // The next request goes to another endpoint.
    pub(crate) fn take_next(&mut self) {
        self.turn += 1;
    }
}

// The text of an error. After it comes a trailer of etcd, which ureq does not read: what it has read before counts.
fn text(response: Response) -> String {
    let mut bytes = Vec::new();
    let _ = response.into_reader().read_to_end(&mut bytes);
    String::from_utf8_lossy(&bytes).into_owned()
}

// An endpoint has this time to accept a connection, and to take or send the next bytes.
fn agent(timeout: Duration) -> Agent {
    AgentBuilder::new()
        .timeout_connect(timeout)
        .timeout_read(timeout)
        .timeout_write(timeout)
        .build()
}

/// The number that a field has, which is a text in JSON; 0 where there is none.
pub(crate) fn number(field: &Value) -> u64 {
    field.as_str().and_then(|it| it.parse().ok()).unwrap_or(0)
}
