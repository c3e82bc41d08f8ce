"""The completions and the manual pages of the commands beside the program, from what `--help` of each says.

Such a help is what the command does, in a line; `Usage: ` and its forms; paragraphs; and lists, each under a line `Files:` or the like, whose items
stand behind two blanks, with their texts behind two more or on lines that are indented further. Lists named `Options` have options, `Commands` the
first words, and under `Examples` stands what is typed.
"""
import os
import re
import subprocess

from page_text import fish_text, roff, roff_head, roff_item, roff_others, zsh_text

TOP = os.path.normpath(os.path.join(os.path.dirname(os.path.abspath(__file__)), ".."))
OUTSIDE = os.path.join(TOP, "outside")
MADE = "tools/pages makes this file from the command's help."
ITEM = re.compile(r"  (\S.*?)(?:  +(\S.*))?")
FILES = {"FILE", "FOLDER", "TRY"}


class Option:
    """An option: its words, the name of its value and the values it can have, and what it does."""

    def __init__(self, item, text):
        self.words = re.findall(r"--?\w[\w-]*", item.partition(" <")[0])
        value = re.search(r"<(.*)>", item)
        self.value = value[1] if value else ""
        self.values = self.value.split("|") if self.value.islower() else []
        self.takes_file = self.value in FILES
        self.about = re.split(r"[.;:](?: |$)", text)[0]


class CommandHelp:
    def __init__(self, name, text):
        self.name, self.text = name, text
        self.about, _, rest = text.partition("\n\n")
        usage, *parts = re.split(r"\n\n(?=\S)", rest.strip("\n"))
        self.usage = [line.removeprefix("Usage: ").strip() for line in usage.split("\n")]
        self.paragraphs = [part for part in parts if not re.match(r"[A-Z][\w ]*:\n", part)]
        self.lists = {head: lines for head, _, lines in (part.partition(":\n") for part in parts if part not in self.paragraphs)}
        self.commands = items(self.lists.get("Commands", ""))
        self.takes_command = "<COMMAND>" in self.usage[0]

    def options(self):
        """Each once: where two lists have it, the first says what it does."""
        found = {}
        for head, lines in self.lists.items():
            for option in [Option(*item) for item in items(lines)] if head.startswith("Options") else []:
                found.setdefault(option.words[0], option)
        return list(found.values())


def items(lines):
    """The items of a list, with their texts."""
    found = []
    for line in lines.splitlines():
        if goes_on := re.match(r" {10,}(\S.*)", line):
            found[-1][1] = f"{found[-1][1]} {goes_on[1]}".strip()
        else:
            found.append([part or "" for part in ITEM.fullmatch(line).groups()])
    return found


# ---- shells


def bash(command):
    function = "_" + command.name.replace("-", "_")
    options = command.options()
    arms = [f"    {' | '.join(option.words)}) mapfile -t COMPREPLY < <(compgen -W '{' '.join(option.values)}' -- \"$word\") && return ;;"
            for option in options if option.values]
    if plain := [word for option in options if option.value and not option.values and not option.takes_file for word in option.words]:
        arms.append(f"    {' | '.join(plain)}) return ;;")
    if command.commands:
        arms.append(f"    {command.name}) mapfile -t COMPREPLY < <(compgen -W '{' '.join(name for name, _ in command.commands)}' -- \"$word\") ;;")
    operand = "compgen -c -- \"$word\"; compgen -f" if command.takes_command else "compgen -f"
    return f"""# Completes the words of {command.name} in bash. {MADE}
{function}() {{
    local word=${{COMP_WORDS[COMP_CWORD]}} before=${{COMP_WORDS[COMP_CWORD - 1]##*/}}
    COMPREPLY=()
    case $before in
{chr(10).join(arms)}
    esac
    if [[ $word == -* ]]; then
        mapfile -t COMPREPLY < <(compgen -W '{' '.join(word for option in options for word in option.words)}' -- "$word")
    elif ((${{#COMPREPLY[@]}} == 0)); then
        compopt -o filenames 2> /dev/null
        mapfile -t COMPREPLY < <({operand} -- "$word")
    fi
}}
complete -F {function} {command.name}
"""


def zsh_option(option):
    value = ""
    if option.value:
        value = f":{option.value.replace('|', ' or ')}:" + (f"({' '.join(option.values)})" if option.values else "_files" if option.takes_file else " ")
    shown = f"[{zsh_text(option.about)}]{value}'"
    if len(option.words) == 1:
        return f"'{option.words[0]}{shown}"
    return f"'({' '.join(option.words)})'{{{','.join(option.words)}}}'{shown}"


def zsh(command):
    words = [zsh_option(option) for option in command.options()]
    if command.commands:
        words.append("'1:command:((" + " ".join(f"{name}\\:\"{zsh_text(text)}\"" for name, text in command.commands) + "))'")
    words.append("'*::COMMAND:_normal'" if command.takes_command and len(command.usage) == 1 else "'*:file:_files'")
    return f"#compdef {command.name}\n# Completes the words of {command.name} in zsh. {MADE}\n_arguments " + " \\\n    ".join(words) + "\n"


def fish_option(option):
    words = "".join(f" -l {word[2:]}" if word.startswith("--") else f" -s {word[1:]}" for word in option.words)
    if option.value:
        words += " -r" if option.takes_file else " -x" + f" -a '{' '.join(option.values)}'" * bool(option.values)
    return f"{words} -d '{fish_text(option.about)}'"


def fish(command):
    lines = [f"# Completes the words of {command.name} in fish. {MADE}"]
    lines += [f"complete -c {command.name} -n __fish_use_subcommand -f -a {name} -d '{fish_text(text)}'" for name, text in command.commands]
    if command.takes_command:
        lines.append(f"complete -c {command.name} -a '(__fish_complete_command)'")
    return "\n".join([*lines, *(f"complete -c {command.name}{fish_option(option)}" for option in command.options())]) + "\n"


# ---- the manual page


def manual(command, version):
    lines = roff_head(MADE, command.name, version, command.about)
    lines += [f".B {roff(form)}" for form in command.usage] + [".fi", ".SH DESCRIPTION"]
    for paragraph in command.paragraphs:
        lines += [".PP", roff(paragraph)]
    for head, part in command.lists.items():
        lines.append(f".SH {head.upper()}")
        if head.startswith("Example"):
            lines += [".nf", roff(part), ".fi"]
        else:
            lines += [line for item in items(part) for line in roff_item(*item)]
    return "\n".join([*lines, *roff_others(command.name, names())]) + "\n"


# ---- what is written


def names():
    return sorted(os.listdir(os.path.join(OUTSIDE, "out", "bin")))


def version_of_sources():
    with open(os.path.join(TOP, "crates", "command_words", "src", "words.rt"), encoding="utf-8") as words:
        return re.search(r'^pub const VERSION: &str = "(.*)";$', words.read(), re.M)[1]


def asked(name):
    said = subprocess.run([os.path.join(OUTSIDE, "out", "bin", name), "--help"], stdout=subprocess.PIPE, encoding="utf-8", check=True)
    return CommandHelp(name, said.stdout)


def pages_of_commands():
    """For each path its text, and the help whose words it has to have."""
    of_its_own = {name: value for name, value in os.environ.items() if name not in ("MAKEFLAGS", "MFLAGS", "MAKELEVEL")}
    subprocess.run(["make", "-s", "-C", OUTSIDE, "commands"], env=of_its_own, check=True)
    version, pages = version_of_sources(), {}
    for command in map(asked, names()):
        texts = {
            f"bash-completion/completions/{command.name}": bash(command),
            f"zsh/site-functions/_{command.name}": zsh(command),
            f"fish/vendor_completions.d/{command.name}.fish": fish(command),
            f"man/man1/{command.name}.1": manual(command, version),
        }
        pages.update({path: (text, [command]) for path, text in texts.items()})
    return pages
