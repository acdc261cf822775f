"""What bash, zsh and fish complete is what the help of the programs lists.

After each command of `cosecmd` and `cosecmd-sign1`, and after `cosecmd-key`, the options are those of its help and no
other; before a command the commands are. After an option the values are those of its help, files where its argument is
a path, and nothing else. zsh completes on a terminal alone, so what its two functions are called with is compared,
where an option without argument says so.
"""
import os
import re
import subprocess
import sys
from typing import NamedTuple

from support import PROGRAM, SIGN1, TOP, Case, folder_of, needs

# how a shell says what it completes the last word to: the words of the line are the arguments after the folder
BASH = r"""
. "$1/$2.bash"
shift
COMP_WORDS=("$@")
COMP_CWORD=$(($# - 1))
words=($(complete -p "$1"))
"${words[2]}"
printf '%s\n' "${COMPREPLY[@]}"
"""
ZSH = r"""
_arguments() { print -rl -- "$@" }
_describe() { print -rl -- ${(P)2} }
file=$1/_$2
shift
words=("$@")
CURRENT=$#
. $file
"""
FISH = """
source $argv[1]/$argv[2].fish
complete -C (string join ' ' -- $argv[2..])
"""


class Option(NamedTuple):
    """An option of a help."""
    name: str
    argument: str  # HEX, or nothing
    values: str  # those that it may have, where help lists them


def options_of(command):
    text = subprocess.run([*command, "--help"], capture_output=True, check=True, text=True).stdout
    pattern = r"^ +(?:-\w, )?(--[a-z0-9-]+)(?: <?([A-Z]+)>?)?\b(?:.*\[possible values: (.*?)\])?"
    return [Option(*found) for found in re.findall(pattern, text, re.M)]


def commands_of_program():
    text = subprocess.run([PROGRAM, "--help"], capture_output=True, check=True, text=True).stdout
    listed = re.search(r"^Commands:\n((?:  .*\n)+)", text, re.M)[1]
    return [name for name in re.findall(r"^  (\w+)", listed, re.M) if name != "help"]


class Shell:
    """The tests of a shell, which says by a command with a script what it completes."""
    command = []

    @classmethod
    def setUpClass(cls):
        super().setUpClass()
        cls.scripts = folder_of(cls)
        subprocess.run([TOP / "packaging" / "pages", "completions", cls.scripts], check=True, stdout=subprocess.DEVNULL)
        cls.commands = commands_of_program()
        # of the words before them the options
        cls.options = {("cosecmd", command): options_of([PROGRAM, command]) for command in cls.commands}
        cls.options.update({("cosecmd-sign1", command): options_of([*SIGN1, command]) for command in ("verify", "cwt")})
        cls.options["cosecmd-key",] = options_of([sys.executable, TOP / "examples" / "cose_key"])

    def lines(self, *words):
        """The lines that the shell says for the last word."""
        environment = {"PATH": os.environ["PATH"], "HOME": str(self.folder), "TERM": "dumb"}
        ended = self.program([self.scripts, *words], command=self.command, env=environment)
        self.assertEqual((ended.status, ended.said), (0, ""), words)
        return ended.text.decode().splitlines()

    def completes(self, words, wanted):
        """The last word is completed to these names."""
        # zsh has the text of an option in brackets after it, that of a command after a colon, and fish after a tab
        names = (re.match(r"(?:--)?[a-z][a-z0-9-]*(?=[\[:\t]|$)", line) for line in self.lines(*words))
        with self.subTest(words=words):
            # what zsh's functions are called with is every name, of which zsh takes those that begin so
            found = {name[0] for name in names if name and name[0].startswith(words[-1])}
            self.assertEqual(sorted(found), sorted(wanted))

    def test_options_are_those_of_help(self):
        for words, options in {("cosecmd",): options_of([PROGRAM]), **self.options}.items():
            self.completes([*words, "-"], [option.name for option in options])

    def test_commands_are_those_of_help(self):
        self.assertNotEqual(self.commands, [])
        for command in self.commands:
            self.completes(["cosecmd", command[:2]], [name for name in self.commands if name.startswith(command[:2])])

    def test_arguments_are_those_of_help(self):
        (self.folder / "part").mkdir()
        self.put("part/one", b"")
        for words, option in ((words, option) for words, options in self.options.items() for option in options):
            with self.subTest(words=words, option=option.name):
                self.look_at_argument(words, option)

    def look_at_argument(self, words, option):
        """What is completed after an option: after a folder, and after nothing where help lists values."""
        wanted = {"part/o": ["part/one"] if option.argument == "PATH" else []} if option.argument else {}
        if option.values:
            wanted[""] = sorted(option.values.split(", "))
        for word, names in wanted.items():
            found = {line.split("\t")[0] for line in self.lines(*words, option.name, word)}
            self.assertEqual(sorted(found - {""}), names)


@needs("bash")
class Bash(Shell, Case):
    command = ["bash", "--norc", "-c", BASH, "bash"]


@needs("fish")
class Fish(Shell, Case):
    command = ["fish", "--no-config", "-c", FISH]


@needs("zsh")
class Zsh(Shell, Case):
    command = ["zsh", "-f", "-c", ZSH, "zsh"]

    def look_at_argument(self, words, option):
        """What its function is called with."""
        listed = option.values.replace(",", "")
        values = "_files" if option.argument == "PATH" else f"({listed})" if listed else ""
        specified = f":{option.argument}:{values}" if option.argument else ""
        found = [line.split("]", 1)[1] for line in self.lines(*words, "-") if line.startswith(f"{option.name}[")]
        self.assertEqual(found, [specified])
