"""camp at a terminal: `python3 -m camp shell`. A person types commands, and camp_shell, or what else answers, is asked them.

| Module | What stands in it |
|---|---|
| backend | what answers: the program camp_shell in frames, or anything with its protocol |
| session, own | the conversation, and its commands that reach files |
| bodies | the lines of a record while they are typed |
| causes, unresolved | what is said of a refusal, and of a call that changes what is unresolved |
| commands, helptexts, completion | the words of commands, what `help` shows, what Tab offers |
| keyboard, screen, progress, interrupts, files | the terminal, how long something takes, Ctrl-C, and files |
"""
