"""What the sources and the documents say of the version."""
import unittest

from scratch import Scratch, printed

import package
import versions

SOURCE = 'const VERSION: &str = "1.2.3";\nconst LONG_VERSION: &str = "1.2.3\ntoolchain: a-kit logic 7";\n'


class Versions(Scratch):
    def setUp(self):
        super().setUp()
        self.write({str(package.SOURCE): SOURCE, 'README.md': '| needs | the Rattle toolchain (`a-kit logic 7`), `make` |\n',
                    str(versions.PROOF): '- The toolchain `a-kit logic 7`: its prover\n',
                    'CHANGELOG.md': '# Changes\n\n## 1.2.3 (2026-11-28)\n\n## 1.2.2\n'})

    def test_all_fit(self):
        self.assertEqual(printed(versions.check_versions), (0, []))

    def test_what_does_not_fit(self):
        for path, old, new, named in [
                (str(package.SOURCE), 'toolchain: a-kit', 'toolchain: b-kit', 'LONG_VERSION'),
                (str(package.SOURCE), '"1.2.3\n', '"1.2.4\n', 'LONG_VERSION'),
                ('CHANGELOG.md', ' (2026-11-28)', '', 'CHANGELOG.md'),
                ('CHANGELOG.md', '## 1.2.3', '## 1.2.4', 'CHANGELOG.md'),
                (str(versions.PROOF), 'a-kit', 'b-kit', 'PROOF.md')]:
            text = (self.top / path).read_text()
            self.write({path: text.replace(old, new)})
            count, lines = printed(versions.check_versions)
            self.assertEqual(count, 1, lines)
            self.assertIn(named, lines[0])
            self.write({path: text})


if __name__ == '__main__':
    unittest.main()
