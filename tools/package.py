#!/usr/bin/env python3
"""Packs the program that is built, with its documents, for machines without the toolchain.

    tools/package.py dist PROGRAM       out/kmipctl-VERSION-ARCH.tar.gz (`make dist`)
    tools/package.py deb PROGRAM        out/kmipctl_VERSION_ARCH.deb (`make deb`; needs dpkg-deb)
    tools/package.py made-of            prints what the program is made of

It runs at the top of the repository, as a user that is not root, and builds nothing. Both have what
`tools/install.sh` copies. The tar's folder has the folders bin, lib and share, for below /usr/local. It also has
MADE-OF, the list of what the program is made of and whether it was proved from these sources, and SHA256SUMS, for `sha256sum -c SHA256SUMS`. The times in both
are that of the commit, so one commit and one program give one tar. The program has to say the version of the
sources.
"""
import email.utils
import gzip
import hashlib
import os
import pathlib
import platform
import re
import shutil
import subprocess
import sys

sys.dont_write_bytecode = True

VERSION = re.compile(r'^const VERSION: &str = "([0-9.]+)";$', re.M)
SOURCE = pathlib.Path('crates/kmip_command_line/src/subcommand.rt')
TOOLCHAIN = re.compile(r'toolchain \(`([^`]+)`\)')
OUT = pathlib.Path('out')
PROGRAM = 'crates/kmipctl/out/kmipctl'
PROVED = pathlib.Path(__file__).resolve().with_name('proved.sh')
LIST = 'share/doc/kmipctl/INSTALLED'
# What dpkg calls the machines.
DEBIAN_ARCHITECTURES = {'x86_64': 'amd64'}
# What is said of a program that was not proved from the sources that lie here.
NOT_PROVED = 'this program was not proved from these sources'

CHANGES = '''kmipctl ({version}) unstable; urgency=medium

  * What changed is in CHANGELOG.md, beside this file.

 -- {who}  {day}
'''

COPYRIGHT = 'The authors of kmipctl hold its copyright. No licence has been chosen yet.\n'

CONTROL = '''Package: kmipctl
Version: {version}
Architecture: {architecture}
Maintainer: {maintainer}
Installed-Size: {size}
Depends: libc6 (>= {libc}), libgcc-s1
Suggests: stunnel4
Section: admin
Priority: optional
Description: makes sure that the symmetric keys in a plan exist on a KMIP 2.1 server
 The server generates the key material, which kmipctl never sees. A plan says
 how far each key goes. No key is created twice or destroyed too early, even
 if replies are lost: that is proved of the code.{proof}
 .
 It does not speak TLS itself. A tunnel such as stunnel does.
'''


def version():
    """The version that the sources say."""
    found = VERSION.search(SOURCE.read_text())
    if not found:
        raise SystemExit(f'{SOURCE} has no line of the version')
    return found[1]


def toolchain():
    """The name of the toolchain that README.md says."""
    found = TOOLCHAIN.search(pathlib.Path('README.md').read_text())
    if not found:
        raise SystemExit('README.md does not name the toolchain')
    return found[1]


def git(*words):
    """What git prints of this repository; nothing where it is none."""
    done = subprocess.run(['git', *words], capture_output=True, text=True)
    return done.stdout.strip() if not done.returncode else ''


def commit():
    """The commit, and whether files differ from it."""
    name = git('rev-parse', 'HEAD') or 'not known'
    return name + (', with changes' if git('status', '--porcelain') else '')


def crates_of(text, name='kmipctl'):
    """The crates that one stands on, by crates.txt: those of this repository, and those of the toolchain's kit."""
    lines = dict(line.split(':') for line in text.splitlines() if line and not line.startswith('#'))
    own, kit, left = set(), set(), [name]
    while left:
        crate = left.pop()
        if crate not in lines:
            kit.add(crate)
        elif crate not in own:
            own.add(crate)
            left += lines[crate].split()
    return sorted(own), sorted(kit)


def is_proved(program):
    """Whether this program was proved from the sources that lie here (tools/proved.sh)."""
    return not subprocess.run([PROVED, 'check', program], stderr=subprocess.DEVNULL).returncode


def made_of(program=PROGRAM):
    """The list of what the program is made of."""
    own, kit = crates_of(pathlib.Path('crates.txt').read_text())
    return '\n'.join([
        f'kmipctl {version()}', f'commit: {commit()}', f'toolchain: {toolchain()}',
        f'proved: {"from these sources" if is_proved(program) else "no, " + NOT_PROVED}',
        '', "Crates of the repository:", *(f'  {crate}' for crate in own),
        '', "Crates of the toolchain's kit, of the version that the kit has:", *(f'  {crate}' for crate in kit),
        '', 'The C library is the one of the machine.', ''])


def judge(program):
    """Stops where the program is not there, or is of another version than the sources."""
    if not os.access(program, os.X_OK):
        raise SystemExit(f'there is no program {program}: run make first; packing builds nothing')
    words = [os.path.realpath(program), '--version']
    said = subprocess.run(words, capture_output=True, text=True, stdin=subprocess.DEVNULL).stdout.strip()
    if said != f'kmipctl {version()}\ntoolchain: {toolchain()}':
        raise SystemExit(f'{program} says "{said}", and the sources are of version {version()}: run make first')


def staged(program, folder, prefix, has_list=True):
    """The empty folder with what is installed in it, and the list of that, if it is to have one."""
    shutil.rmtree(folder, ignore_errors=True)
    words = ['tools/install.sh', 'install', program, prefix, str(folder)]
    subprocess.run(words, check=True, stdout=subprocess.DEVNULL)
    if not has_list:
        (folder / prefix.strip('/') / LIST).unlink()
    return folder


def files_in(folder):
    """The files in a folder, by their paths in it."""
    return sorted(path.relative_to(folder).as_posix() for path in folder.rglob('*') if path.is_file())


def sums(folder, algorithm, files):
    """A line a file, as sha256sum and md5sum print them."""
    return ''.join(f'{hashlib.new(algorithm, (folder / name).read_bytes()).hexdigest()}  {name}\n' for name in files)


def pack(program):
    """Makes the tar, and returns its path."""
    name = f'kmipctl-{version()}-{platform.machine()}'
    folder = OUT / 'dist' / name
    # Below /usr/local the units are right as they are: that is what a tar is unpacked for.
    staged(program, OUT / 'dist', '/usr/local')
    (OUT / 'dist/usr/local').rename(folder)
    (OUT / 'dist/usr').rmdir()
    (folder / 'MADE-OF').write_text(made_of(program))
    (folder / 'SHA256SUMS').write_text(sums(folder, 'sha256', files_in(folder)))
    made = OUT / f'{name}.tar.gz'
    words = ['tar', '--create', '--file=-', '--sort=name', '--format=ustar', f'--mtime=@{time_of_commit()}',
             '--owner=root:0', '--group=root:0', '--mode=u=rwX,go=rX', f'--directory={folder.parent}', name]
    packed = subprocess.run(words, check=True, stdout=subprocess.PIPE).stdout
    made.write_bytes(gzip.compress(packed, mtime=0))
    return made


def time_of_commit():
    """When the commit was made, in seconds since the start of 1970."""
    return int(git('log', '-1', '--format=%ct') or 0)


def libc_of(program):
    """The least version of the C library that the program names."""
    named = set(re.findall(rb'GLIBC_(\d+(?:\.\d+)+)\0', pathlib.Path(program).read_bytes()))
    if not named:
        raise SystemExit(f'{program} names no version of the C library')
    return max((name.decode() for name in named), key=lambda name: tuple(map(int, name.split('.'))))


def debian_documents(folder):
    """Adds the changes, in Debian's form, and the copyright. No licence has been chosen yet: lintian warns of that,
    and of nothing else."""
    who = git('log', '-1', '--format=%an <%ae>') or 'not known <root@localhost>'
    day = email.utils.formatdate(time_of_commit())
    changes = CHANGES.format(version=version(), who=who, day=day)
    (folder / 'changelog.gz').write_bytes(gzip.compress(changes.encode(), mtime=0))
    (folder / 'copyright').write_text(COPYRIGHT)


def debian_folder(program, folder):
    """Fills the folder of the package: what is installed, MADE-OF, and what dpkg has to know."""
    staged(program, folder, '/usr', has_list=False)  # dpkg has its own
    if shutil.which('strip'):
        subprocess.run(['strip', '--strip-unneeded', str(folder / 'usr/bin/kmipctl')], check=True)
    (folder / 'usr/share/doc/kmipctl/MADE-OF').write_text(made_of(program))
    for page in sorted((folder / 'usr/share/man').rglob('*.[15]')):
        page.with_name(page.name + '.gz').write_bytes(gzip.compress(page.read_bytes(), mtime=0))
        page.unlink()
    # Debian's zsh looks there, and not in the folder that zsh itself names.
    (folder / 'usr/share/zsh/site-functions').rename(folder / 'usr/share/zsh/vendor-completions')
    debian_documents(folder / 'usr/share/doc/kmipctl')
    names = files_in(folder)
    size = sum((folder / name).stat().st_size for name in names)
    control = folder / 'DEBIAN'
    control.mkdir()
    (control / 'md5sums').write_text(sums(folder, 'md5', names))
    (control / 'control').write_text(CONTROL.format(
        version=version(), architecture=DEBIAN_ARCHITECTURES[platform.machine()], size=-(-size // 1024),
        proof='' if is_proved(program) else f'\n .\n But {NOT_PROVED}.',
        maintainer=git('log', '-1', '--format=%an <%ae>') or 'not known <root@localhost>', libc=libc_of(program)))
    for path in [folder, *folder.rglob('*')]:
        path.chmod(0o755 if path.is_dir() or os.access(path, os.X_OK) and path.stat().st_mode & 0o100 else 0o644)


def pack_debian(program):
    """Makes the package, and returns its path."""
    if platform.machine() not in DEBIAN_ARCHITECTURES:
        raise SystemExit(f'what dpkg calls a {platform.machine()} is not known here')
    folder = OUT / 'deb'
    debian_folder(program, folder)
    made = OUT / f'kmipctl_{version()}_{DEBIAN_ARCHITECTURES[platform.machine()]}.deb'
    subprocess.run(['dpkg-deb', '--build', '--root-owner-group', str(folder), str(made)], check=True,
                   stdout=subprocess.DEVNULL, env=dict(os.environ, SOURCE_DATE_EPOCH=str(time_of_commit())))
    return made


def main(words):
    if words == ['made-of']:
        print(made_of(), end='')
        return 0
    ways = {'dist': pack, 'deb': pack_debian}
    if len(words) != 2 or words[0] not in ways:
        print(__doc__.split('\n\n')[1], file=sys.stderr)
        return 2
    os.umask(0o022)
    judge(words[1])
    if not is_proved(words[1]):
        print(f'{words[1]}: {NOT_PROVED}: make proves and builds it', file=sys.stderr)
    print(ways[words[0]](words[1]))
    return 0


if __name__ == '__main__':
    sys.exit(main(sys.argv[1:]))
