"""Man pages, made of the text of `--help` and of docs/language.md."""

import argparse
import re
import sys

from .helptext import Option

ABOUT = {
    "camp": "run a script of clients over a repository of named patches",
    "camp_shell": "hold a conversation with a repository of named patches",
}
SEE = {"camp": "camp_shell(1), camp-python(1), camp-language(7)", "camp_shell": "camp(1), camp-python(1), camp-language(7), git-fast-import(1)"}


def escaped(text):
    """The text with what roff would read as its own written out."""
    text = text.replace("\\", "\\e").replace("-", "\\-").replace("'", "\\(aq").replace("`", "\\(ga").replace("^", "\\(ha").replace("~", "\\(ti")
    return text


def verbatim(text):
    """A block that keeps its lines."""
    lines = ("\\&" + escaped(line) if line[:1] in (".", "'") else escaped(line) for line in text.splitlines())
    return ".nf\n" + "\n".join(lines) + "\n.fi\n"


def option_text(option):
    names = [it for it in (option.short, option.long) if it]
    head = ", ".join(f"\\fB{escaped(it)}\\fR" for it in names)
    value = f" \\fI{escaped(option.value)}\\fR" if option.value else ""
    return f".TP\n{head}{value}\n{escaped(option.text)}\n"


def program_page(name, found, version):
    """The page of a program, section 1."""
    return (
        f'.TH {name.upper()} 1 "" "camp {version}" "camp"\n'
        f".SH NAME\n{escaped(name)} \\- {escaped(ABOUT[name])}\n"
        f".SH SYNOPSIS\n.nf\n{escaped(found.usage)}\n.fi\n"
        ".SH OPTIONS\n" + "".join(option_text(it) for it in found.options) + ".SH DESCRIPTION\n" + verbatim(found.reference) + f".SH SEE ALSO\n{escaped(SEE[name])}\n"
    )


def python_page(top, version):
    """The page of `python3 -m camp`, section 1, made of its parser."""
    sys.path.insert(0, f"{top}/clients/python")
    from camp.__main__ import parser

    found = parser()
    (commands,) = (it for it in found._actions if isinstance(it, argparse._SubParsersAction))
    texts = {it.dest: it.help for it in commands._choices_actions}
    out = [f'.TH CAMP\\-PYTHON 1 "" "camp {version}" "camp"\n.SH NAME\ncamp\\-python \\- a repository of named patches at a terminal\n']
    out.append(".SH SYNOPSIS\n" + "".join(f".B {escaped(found.prog)} {name}\n{escaped(usage_of(it))}\n.br\n" for name, it in commands.choices.items()))
    for name, it in commands.choices.items():
        out.append(f".SH COMMAND {name.upper()}\n{escaped(name)}: {escaped(texts[name])}.\n.PP\n{escaped(it.description)}\n")
        out += [option_text(action_option(action)) for action in it._actions]
    for part in found.epilog.split("\n\n"):
        title, _, lines = part.partition(":\n")
        out.append(f".SH {title.upper()}\n{verbatim(lines)}")
    return "".join(out) + ".SH SEE ALSO\ncamp_shell(1), camp\\-language(7), dot(1)\n"


def usage_of(parser):
    """The words behind a command, without line breaks."""
    return " ".join(parser.format_usage().split()).partition(f" {parser.prog} ")[2]


def action_option(action):
    """An option or a word of a command line."""
    value = action.metavar if action.nargs != 0 else None
    *short, long = action.option_strings or [action.metavar]
    return Option(short[0] if short else None, long, value if action.option_strings else None, action.help)


def language_page(markdown, version):
    """The page of the language, section 7, of docs/language.md: headings become sections, tables and code keep their lines."""
    out = [f'.TH CAMP\\-LANGUAGE 7 "" "camp {version}" "camp"\n.SH NAME\ncamp\\-language \\- commands, questions and answers of camp\n']
    code = False
    for block in re.split(r"\n(?=```|#|\|)|\n\n", markdown):
        block = block.strip("\n")
        if block.startswith("```"):
            code = not code
            block = block.partition("\n")[2]
            if block.endswith("```"):
                code, block = False, block[:-3]
        if not block:
            continue
        heading = None if code else re.match(r"#+ (.*)", block)
        if heading:
            out.append(f'.SH "{escaped(plain(heading[1]).upper())}"\n')
            block = block.partition("\n")[2]
        if block.strip():
            out.append(verbatim(block) if code else table(block) if block.startswith("|") else ".PP\n" + text_lines(block))
    return "".join(out)


def text_lines(block):
    """A paragraph, or a list. An item that begins with code is a term and what is said of it, any other one has a bullet."""
    out = []
    for line in block.splitlines():
        term = re.match(r"- (`[^`]*`(?:, `[^`]*`)*):? (.*)", line)
        if term:
            out.append(f".TP\n\\fB{escaped(plain(term[1]))}\\fR\n{escaped(plain(term[2]))}\n")
        else:
            out.append(f".IP \\(bu 2\n{escaped(plain(line[2:]))}\n" if line.startswith("- ") else f"{escaped(plain(line))}\n")
    return "".join(out)


def table(block):
    """A table as a list: what its first column has is the term, and the others say more of it."""
    out = []
    for row in block.splitlines()[2:]:
        term, *more = (escaped(plain(it.strip())) for it in row.strip("|").split("|"))
        text = "; ".join(it for it in more if it)
        out.append(f".TP\n\\fB{term}\\fR\n{text}\n" if text else f".TP\n\\fB{term}\\fR\n\\&\n")
    return "".join(out)


def plain(text):
    """Markdown's links, emphasis and code marks, taken off; no line begins with a dot."""
    text = re.sub(r"\[([^\]]*)\]\([^)]*\)", r"\1", text)
    text = re.sub(r"\*\*([^*]+)\*\*", r"\1", text).replace("`", "")
    return "\n".join(" " + it if it[:1] in (".", "'") else it for it in text.splitlines())
