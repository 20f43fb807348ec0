"""What the packages are made of, and the examples that they have."""
import re
import subprocess
import unittest

from scratch import Scratch, TOOLS, printed

import package

TOP = TOOLS.parent
CRATES = '# Layers.\n\nlow: hex\nmiddle: low toml\nkmipctl: middle\n\n# tests\nother: kmipctl clap\n'


class Packages(Scratch):
    def test_the_crates_of_the_program_alone(self):
        self.assertEqual(package.crates_of(CRATES), (['kmipctl', 'low', 'middle'], ['hex', 'toml']))

    def test_what_it_is_made_of(self):
        self.write({'crates.txt': CRATES, str(package.SOURCE): '\nconst VERSION: &str = "1.2.3";\n',
                    'README.md': '| needs | the Rattle toolchain (`a-kit logic 7`), `make` |\n'})
        lines = package.made_of().splitlines()
        self.assertEqual((lines[0], lines[2]), ('kmipctl 1.2.3', 'toolchain: a-kit logic 7'))
        self.assertEqual([line.strip() for line in lines if line.startswith('  ')], ['kmipctl', 'low', 'middle', 'hex', 'toml'])

    def write_proved(self):
        """A program with its note, and sources with a version."""
        self.write({'crates.txt': CRATES, str(package.SOURCE): '\nconst VERSION: &str = "1.2.3";\n', 'crates/low/out/left.rt': 'old\n',
                    'README.md': '| needs | the Rattle toolchain (`a-kit logic 7`), `make` |\n', 'crates/kmipctl/out/kmipctl': 'program\n'})
        summed = subprocess.run([package.PROVED, 'sources'], capture_output=True, text=True).stdout.strip()
        return subprocess.run([package.PROVED, 'note', package.PROGRAM, summed], capture_output=True).returncode, summed

    def test_a_program_that_was_proved_from_these_sources(self):
        self.assertEqual(self.write_proved()[0], 0)
        self.assertTrue(package.is_proved(package.PROGRAM))
        self.assertEqual(package.made_of().splitlines()[3], 'proved: from these sources')
        self.write({'crates/low/out/left.rt': 'new\n'})
        self.assertTrue(package.is_proved(package.PROGRAM))

    def test_a_program_that_was_not(self):
        wanted = 'proved: no, this program was not proved from these sources'
        for path, text in ('crates/kmipctl/out/kmipctl', 'other\n'), ('crates/low/specs/A.antt', '-- a\n'), ('crates.txt', CRATES + '\n'):
            self.write_proved()
            self.write({path: text})
            self.assertFalse(package.is_proved(package.PROGRAM), path)
            self.assertEqual(package.made_of().splitlines()[3], wanted)
            (self.top / path).unlink()
        self.write_proved()
        (self.top / 'crates/kmipctl/out/PROVED').unlink()
        self.assertEqual(package.made_of().splitlines()[3], wanted)

    def test_nothing_is_noted_if_the_sources_changed_during_the_proof(self):
        _, summed = self.write_proved()
        self.write({'crates/low/src/lib.rt': '//! New.\n'})
        noted = subprocess.run([package.PROVED, 'note', package.PROGRAM, summed], capture_output=True)
        self.assertEqual((noted.returncode, (self.top / 'crates/kmipctl/out/PROVED').exists()), (1, False))

    def test_the_description_of_a_package(self):
        parts = dict(version='1', architecture='amd64', size=1, maintainer='a', libc='2')
        self.assertIn('is proved of the code.\n .\n It does', package.CONTROL.format(proof='', **parts))

    def test_a_source_without_a_version(self):
        self.write({str(package.SOURCE): '\n', 'README.md': '\n'})
        for call in package.version, package.toolchain:
            with self.assertRaises(SystemExit):
                call()

    def test_the_c_library(self):
        self.write({'program': 'x\0GLIBC_2.9\0GLIBC_2.34\0GLIBC_2.2.5\0GLIBC_9', 'other': 'x'})
        self.assertEqual(package.libc_of('program'), '2.34')
        with self.assertRaises(SystemExit):
            package.libc_of('other')

    def test_a_program_of_another_version(self):
        self.write({'README.md': '| needs | the Rattle toolchain (`a-kit logic 7`), `make` |\n',
                    str(package.SOURCE): '\nconst VERSION: &str = "1.2.3";\n', 'program': '#!/bin/sh\necho kmipctl 1.2.2\n'})
        for program, why in ('none', 'there is no program none'), ('program', 'program says "kmipctl 1.2.2"'):
            with self.assertRaises(SystemExit) as stopped:
                package.judge(program)
            self.assertIn(why, str(stopped.exception))
            (self.top / 'program').chmod(0o755)

    def test_sums(self):
        self.write({'a/b': '', 'c': ''})
        self.assertEqual(package.files_in(self.top), ['a/b', 'c'])
        self.assertEqual(package.sums(self.top, 'md5', ['a/b']), 'd41d8cd98f00b204e9800998ecf8427e  a/b\n')

    def test_words_that_it_does_not_know(self):
        self.assertEqual(printed(package.main, ['rpm', 'program'])[0], 2)


class Examples(unittest.TestCase):
    def test_the_alerts_are_on_metrics_that_are_documented(self):
        told = set(re.findall(r'^\| `(kmipctl_\w+)', (TOP / 'docs/AUTOMATION.md').read_text(), re.M))
        named = set(re.findall(r'kmipctl_\w+', (TOP / 'examples/prometheus/alerts.yml').read_text()))
        self.assertLessEqual(named, told)

    def test_both_pods_are_one(self):
        job, cron = [(TOP / 'examples/kubernetes' / name).read_text() for name in ('job.yaml', 'cronjob.yaml')]
        pod = job[job.index('  # Exit status 1'):]
        self.assertTrue(cron.endswith(''.join(f'    {line}' for line in pod.splitlines(True))))

    def test_the_image_says_this_version(self):
        version = package.VERSION.search((TOP / package.SOURCE).read_text())[1]
        for name in 'examples/container/Containerfile', 'examples/kubernetes/job.yaml':
            named = set(re.findall(r'kmipctl(?::|-)(\d[\d.]*\d)', (TOP / name).read_text()))
            self.assertEqual(named, {version}, name)


if __name__ == '__main__':
    unittest.main()
