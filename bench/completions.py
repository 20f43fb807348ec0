#!/usr/bin/env python3
"""Lets bash, zsh and fish complete command lines by the scripts that `completions` prints.

    bench/completions.py PROGRAM FOLDER

What has to be offered is read from the help of the program: its commands, the options of each, the words and the
files that an option takes. What each shell offers is asked of that shell, of zsh by its line editor at a terminal. Each
row prints the shell, what it looks at and `ok`, or what is wrong. A shell that the machine lacks is skipped. The last
line counts what is wrong, and the exit status is 0 where nothing is.
"""

import os
import pty
import re
import select
import shutil
import subprocess
import sys
import time

# What has not come after so many seconds never does.
LONGEST = 60
OPTION = re.compile(r'^  (?:-\w, |    )--([\w-]+)(?: <(\w+)>)?', re.M)
WORD = re.compile(r'^  <\w+>\n.*?\[possible values: ([^\]]*)\]', re.M | re.S)
COMMANDS = re.compile(r'^Commands:\n(.*?)\n\n', re.M | re.S)
# The options of which the help gives a range of few numbers.
RANGE = re.compile(r'^      --([\w-]+) <\w+>\n[^\n]*, (\d) to (\d)$', re.M)
FILES = ['PATH', 'FILE']
THERE = ['plan one.toml', 'plan.toml']

BASH = '''
source "$1"
shift
compopt() { [[ "$*" == '-o default' ]] && asked_for_files=1; }
COMP_WORDS=("$@") COMP_CWORD=$(($# - 1))
_kmipctl
if [[ -n ${asked_for_files-} ]]; then COMPREPLY+=(FILES); fi
printf '%s\\n' "${COMPREPLY[@]}"
complete -p kmipctl >&2
'''

# What is offered goes to a file. A line `end` says that all is there.
ZSH = '''
fpath=("$FOLDER" $fpath)
autoload -Uz compinit
compinit -u -d "$FOLDER/zcompdump"
_files() { print -r -- FILES >> "$FOLDER/said"; return 1 }
compadd() {
    if [[ ${@[1,(i)(-|--)]} == *-(O|A|D)\\ * ]]; then
        builtin compadd "$@"
        return
    fi
    local -a hits
    builtin compadd -A hits "$@"
    print -rl -- $hits >> "$FOLDER/said"
    builtin compadd "$@"
}
said() { print -r -- end >> "$FOLDER/said" }
ask() { comppostfuncs=(said); zle list-choices }
zle -N ask
bindkey '^T' ask
bindkey '^U' kill-whole-line
PROMPT='' LISTMAX=1000
print ready
'''


class Bash:
    name = 'bash'

    def __init__(self, folder, script):
        self.script = script

    def offered(self, line):
        words = re.findall(r'=|[^\s=]+', line)
        words += [''] if line.endswith(' ') else []
        done = subprocess.run(['bash', '--norc', '-c', BASH, 'bash', self.script, *words], capture_output=True, text=True,
                              timeout=LONGEST)
        wanted = 'complete -F _kmipctl kmipctl\n'
        return done.stdout.split() + ([] if done.stderr == wanted else [done.stderr])

    def end(self):
        pass


class Fish:
    name = 'fish'

    def __init__(self, folder, script):
        self.script = script

    def offered(self, line):
        code = 'source $argv[1]; complete -C $argv[2]'
        done = subprocess.run(['fish', '--no-config', '-c', code, self.script, line], capture_output=True, text=True,
                              timeout=LONGEST)
        offered = [said.split('\t')[0].split('=')[-1] for said in done.stdout.splitlines()] + done.stderr.splitlines()
        return [word for word in offered if word not in THERE] + (['FILES'] if set(THERE) <= set(offered) else [])

    def end(self):
        pass


class Zsh:
    name = 'zsh'

    def __init__(self, folder, script):
        self.said = os.path.join(folder, 'said')
        shutil.copy(script, os.path.join(folder, '_kmipctl'))
        setup = os.path.join(folder, 'setup.zsh')
        with open(setup, 'w') as file:
            file.write(ZSH)
        self.process, self.terminal = pty.fork()
        if not self.process:
            environment = dict(os.environ, TERM='vt100', FOLDER=folder, COLUMNS='200')
            os.execvpe('zsh', ['zsh', '-f', '-i'], environment)
        self.type(f'source {setup}\r')
        self.read(b'ready\r')

    def type(self, text):
        os.write(self.terminal, text.encode())

    def read(self, wanted=None, seconds=LONGEST):
        """What the terminal shows, until this is among it or the time is over."""
        shown, end = b'', time.monotonic() + seconds
        while time.monotonic() < end and not (wanted and wanted in shown):
            if select.select([self.terminal], [], [], 0.02)[0]:
                shown += os.read(self.terminal, 65536)
            elif wanted is None:
                break
        return shown

    def offered(self, line):
        with open(self.said, 'w'):
            pass
        self.type('\x15' + line + '\x14')
        end = time.monotonic() + LONGEST
        while time.monotonic() < end:
            self.read()
            with open(self.said) as file:
                said = file.read()
            if said.endswith('end\n'):
                return [word.rstrip('=') for word in said.splitlines()[:-1] if word]
        return ['nothing came']

    def end(self):
        self.type('\x15exit\r')
        os.close(self.terminal)
        os.waitpid(self.process, 0)


class Trial:
    def __init__(self, program, folder):
        shutil.rmtree(folder, ignore_errors=True)
        os.makedirs(os.path.join(folder, 'there'))
        os.chdir(os.path.join(folder, 'there'))
        self.program, self.folder = program, folder
        self.rows, self.wrong = 0, 0
        for name in THERE:
            with open(name, 'w'):
                pass
        self.commands = re.findall(r'^  (\w+) ', COMMANDS.search(self.printed('--help'))[1], re.M)

    def printed(self, *words):
        return subprocess.run([self.program, *words], capture_output=True, text=True, check=True).stdout

    def compare(self, name, got, wanted):
        self.rows += 1
        if sorted(set(got)) == sorted(wanted):
            print(f'{name}: ok')
        else:
            self.wrong += 1
            print(f'{name}: wrong\n    offered {sorted(set(got))}\n    wanted  {sorted(wanted)}')

    def look(self, shell, line, wanted):
        """Looks whether the shell offers this; behind a word that is no option, options may be offered too."""
        offered = shell.offered(line)
        if not line.split(' ')[-1].startswith('-'):
            offered = [word for word in offered if not word.startswith('-')]
        self.compare(f'{shell.name}, {line!r}', offered, wanted)

    def values(self, shell, command, help):
        """What stands behind each option, and by itself."""
        numbers = {word: [str(number) for number in range(int(least), int(most) + 1)]
                   for word, least, most in RANGE.findall(help)}
        for word, value in OPTION.findall(help):
            if value:
                wanted = ['FILES'] if value in FILES else numbers.get(word, [])
                self.look(shell, f'kmipctl {command} --{word} ', wanted)
        for words in WORD.findall(help):
            self.look(shell, f'kmipctl {command} ', words.split(', '))
            self.look(shell, f'kmipctl {command} {words.split(", ")[0]} ', [])

    def shell(self, shell):
        self.look(shell, 'kmipctl ', self.commands)
        self.look(shell, 'kmipctl li', ['list'])
        self.look(shell, 'kmipctl --', ['--help', '--version'])
        self.look(shell, 'kmipctl help ', self.commands)
        for command in self.commands:
            if command != 'help':
                help = self.printed(command, '--help')
                options = [f'--{word}' for word, _ in OPTION.findall(help)]
                self.look(shell, f'kmipctl {command} --', options)
                self.values(shell, command, help)
        self.look(shell, 'kmipctl run --plan=', ['FILES'])
        self.look(shell, 'kmipctl sim --plan plan.toml --t', ['--then', '--trace'])
        self.look(shell, 'kmipctl run --plan check --afr', ['--afresh'])
        self.look(shell, 'kmipctl nothing --', [])

    def once(self, shell):
        """What is there is not offered again. fish offers it."""
        self.look(shell, 'kmipctl list --json --plan plan.toml --', ['--help', '--progress'])

    def excluded(self, shell):
        """An option that may not stand beside one that is there is not offered. zsh alone looks for it."""
        self.look(shell, 'kmipctl run --socket s --lo', ['--lock-wait'])
        self.look(shell, 'kmipctl run --afresh --be', [])
        self.look(shell, 'kmipctl sim --trace --di', [])
        self.look(shell, 'kmipctl check --json-schema --pl', [])

    def end(self):
        print(f'{self.rows} rows, {self.wrong} wrong')
        return 1 if self.wrong else 0


def main():
    trial = Trial(os.path.realpath(sys.argv[1]), os.path.realpath(sys.argv[2]))
    for kind in Bash, Zsh, Fish:
        if not shutil.which(kind.name):
            print(f'{kind.name}: skipped, this machine has no {kind.name}')
            continue
        script = os.path.join(trial.folder, f'kmipctl.{kind.name}')
        with open(script, 'w') as file:
            file.write(trial.printed('completions', kind.name))
        shell = kind(trial.folder, script)
        try:
            trial.shell(shell)
            if kind is not Fish:
                trial.once(shell)
            if kind is Zsh:
                trial.excluded(shell)
        finally:
            shell.end()
    return trial.end()


if __name__ == '__main__':
    sys.exit(main())
