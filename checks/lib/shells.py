"""What bash, zsh and fish complete by the files of an installed program: each is asked as someone
who typed some words and presses the tabulator."""

import os
import pty
import shutil
import subprocess
import time

BASH = r"""
source "$1"; shift
COMP_WORDS=("$@") COMP_CWORD=$(($# - 1)) COMPREPLY=()
function=$(complete -p "$1" | sed 's/.*-F \([^ ]*\).*/\1/')
"$function" "$1" "${COMP_WORDS[COMP_CWORD]}" "${COMP_WORDS[COMP_CWORD - 1]}"
printf '%s\n' "${COMPREPLY[@]}"
"""

# What is completed is noted at the call by which each part of zsh hands it in. Calls that ask alone
# which of some words match, and give none, are passed on.
ZSH = r"""
fpath=($1/share/zsh/site-functions $fpath)
found=$2
autoload -Uz compinit && compinit -u -d $2.dump
compadd() {
    if [[ ${@[1,(i)(-|--)]} == *-(O|A|D)\ * ]]; then
        builtin compadd "$@"
        return
    fi
    typeset -a hits
    builtin compadd -A hits "$@"
    builtin compadd "$@"
    print -rl -- $hits >> $found
}
note() {
    _main_complete
    compstate[insert]='' compstate[list]=''
    print END >> $found
}
zle -C note complete-word note
bindkey '^I' note
PS1= PS2= RPS1=
unsetopt beep
print READY >> $found
"""


def run(*command, **more):
    done = subprocess.run(command, capture_output=True, text=True, timeout=120, **more)
    if done.returncode != 0 or done.stderr:
        raise SystemExit(f"failed: {' '.join(map(str, command))}\n{done.stdout}{done.stderr}")
    return done.stdout.splitlines()


class Bash:
    """bash, over the file that it finds below `share/bash-completion`."""

    name = "the completion of bash"

    def __init__(self, prefix, room):
        self.folder = prefix / "share/bash-completion/completions"
        for file in self.folder.iterdir():
            run("bash", "-n", str(file))

    def ask(self, *words):
        script = ["bash", "--norc", "-c", BASH, "bash", str(self.folder / words[0])]
        return sorted({word for word in run(*script, *words) if word})


class Fish:
    """fish, which finds the file below `share/fish` where XDG_DATA_DIRS says so."""

    name = "the completion of fish"

    def __init__(self, prefix, room):
        for file in (prefix / "share/fish/vendor_completions.d").iterdir():
            run("fish", "--no-execute", str(file))
        home = str(room / "fish")
        os.makedirs(home)
        self.environment = {**os.environ, "HOME": home, "XDG_DATA_DIRS": str(prefix / "share")}
        self.environment["PATH"] = f"{prefix / 'bin'}:{os.environ['PATH']}"
        for name in ("XDG_CONFIG_HOME", "XDG_DATA_HOME", "XDG_CACHE_HOME"):
            self.environment.pop(name, None)

    def ask(self, *words):
        line = " ".join(words)
        lines = run("fish", "-c", 'complete -C "$argv[1]"', line, env=self.environment)
        return sorted({line.split("\t")[0] for line in lines})


class Zsh:
    """zsh, at a terminal, as it completes nowhere else."""

    name = "the completion of zsh"

    def __init__(self, prefix, room):
        for file in (prefix / "share/zsh/site-functions").iterdir():
            run("zsh", "-n", str(file))
        self.found = room / "zsh.found"
        setup = room / "zsh.setup"
        setup.write_text(ZSH)
        self.terminal, other = pty.openpty()
        self.shell = subprocess.Popen(
            ["zsh", "-f", "-i"], stdin=other, stdout=other, stderr=other, start_new_session=True
        )
        os.close(other)
        self.enter(f" source '{setup}' '{prefix}' '{self.found}'\n", "READY")

    def enter(self, keys, last):
        """Types keys and waits for the last line of what is noted of them."""
        self.found.write_text("")
        os.write(self.terminal, keys.encode())
        until = time.monotonic() + 60
        while not self.found.read_text().endswith(f"{last}\n"):
            if time.monotonic() > until:
                raise SystemExit(f"failed: zsh doesn't answer {keys!r}")
            time.sleep(0.02)
        return self.found.read_text().splitlines()[:-1]

    def ask(self, *words):
        # Control and U empties the line before.
        return sorted({word for word in self.enter(f"\x15{' '.join(words)}\t", "END") if word})


def find(prefix, room, notes):
    """The shells that are installed."""
    shells = []
    for kind in (Bash, Zsh, Fish):
        name = kind.__name__.lower()
        if shutil.which(name):
            shells.append(kind(prefix, room))
        else:
            notes.append(f"{name} isn't installed")
    return shells
