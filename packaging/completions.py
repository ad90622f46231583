"""Completions for bash and zsh, made of the options that `--help` lists."""


def bash(programs):
    """One file for both programs: options, and files after those options that take one."""
    out = ["# Completions of camp, for bash."]
    for name, found in programs.items():
        files = "|".join(it.long for it in found.options if it.value == "FILE") or "--"
        values = "|".join(it.long for it in found.options if it.value and it.value != "FILE") or "--"
        words = "\\n".join(word for it in found.options for word in (it.short, it.long) if word)
        out.append(f"""_{name}() {{
    local word=${{COMP_WORDS[COMP_CWORD]}} before=${{COMP_WORDS[COMP_CWORD-1]}}
    # A path with blanks is one word.
    local IFS=$'\\n'
    case $before in
        {files}) COMPREPLY=($(compgen -f -- "$word")) ;;
        {values}) COMPREPLY=() ;;
        *) COMPREPLY=($(compgen -W $'{words}' -- "$word")) ;;
    esac
}}
complete -o filenames -F _{name} {name}""")
    return "\n".join(out) + "\n"


def zsh(name, found):
    """The file _NAME of a program."""
    out = [f"#compdef {name}", "_arguments -s \\"]
    for it in found.options:
        text = it.text.replace("'", "").replace("[", "(").replace("]", ")").replace(":", " ")
        takes = {None: "", "FILE": ":file:_files"}.get(it.value, f":{(it.value or '').lower()}:")
        out.append(f"    '{it.long}[{text}]{takes}' \\")
    return "\n".join(out)[:-2] + "\n"
