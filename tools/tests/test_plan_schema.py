"""The schema of plans, and the validator that tries it."""
import shutil
import tomllib
import unittest

from scratch import Scratch, TOOLS, printed

import plan_schema

TOP = TOOLS.parent
SPECS = ['kmip_plan/specs/Words.antt', 'kmip_plan/specs/TargetWords.antt', 'kmip_plan/specs/Tables.antt',
         'kmip_plan/specs/Reading.antt', 'kmip_plan/specs/Limits.antt', 'kmip_plan/specs/Chains.antt',
         'kmip_objects/specs/Ranges.antt']
KEY = {'name': 'k1', 'algorithm': 'AES', 'length': 256, 'usage': ['encrypt', 'decrypt'], 'target': 'active'}


def faults(value, schema):
    return list(plan_schema.Validator(schema).faults(value))


class ValidatorOfPlans(unittest.TestCase):
    """What each keyword means, by the text of JSON Schema."""

    def test_types(self):
        for name, value in (('object', {}), ('array', []), ('string', '')):
            self.assertEqual(faults(value, {'type': name}), [])
            self.assertEqual(faults(7, {'type': name}), [f': it is no {name}'])

    def test_words(self):
        self.assertEqual(faults(256.0, {'enum': [128, 256]}), [])
        self.assertEqual(faults('256', {'enum': [128, 256]}), [': it is none of 128, 256'])
        self.assertEqual(faults(True, {'const': 1}), [': it is none of 1'])

    def test_fields(self):
        schema = {'required': ['a'], 'additionalProperties': False, 'properties': {'a': {'type': 'string'}}}
        self.assertEqual(faults({'a': ''}, schema), [])
        self.assertEqual(faults({'b': ''}, schema), [': there is no a', ': there is b'])
        self.assertEqual(faults({'a': 1}, schema), ['/a: it is no string'])
        # What asks for fields asks nothing of a value that is no object.
        self.assertEqual(faults(1, schema), [])

    def test_items(self):
        schema = {'items': {'type': 'string'}, 'minItems': 1, 'maxItems': 2, 'uniqueItems': True}
        self.assertEqual(faults(['a', 'b'], schema), [])
        self.assertEqual(faults([], schema), [': it has fewer than 1 items'])
        self.assertEqual(faults(['a', 1, 'a'], schema), [
            '/1: it is no string', ': it has more than 2 items', '/2: it is there twice'])

    def test_texts(self):
        schema = {'minLength': 1, 'maxLength': 2, 'pattern': '^[a-c]*$'}
        self.assertEqual(faults('ab', schema), [])
        self.assertEqual(faults('', schema), [': it has fewer than 1 characters'])
        self.assertEqual(faults('abc', schema), [': it has more than 2 characters'])
        self.assertEqual(faults('a\n', schema), [': it does not match ^[a-c]*$'])
        self.assertEqual(faults(7, schema), [])

    def test_conditions(self):
        schema = {'allOf': [{'if': {'required': ['a']}, 'then': {'not': {'required': ['b']}}}]}
        self.assertEqual(faults({'b': 1}, schema), [])
        self.assertEqual(faults({'a': 1}, schema), [])
        self.assertEqual(faults({'a': 1, 'b': 1}, schema), [': it is what it may not be: {"required": ["b"]}'])

    def test_references(self):
        schema = {'$defs': {'word': {'type': 'string'}}, 'items': {'$ref': '#/$defs/word'}}
        self.assertEqual(faults(['a'], schema), [])
        self.assertEqual(faults([1], schema), ['/0: it is no string'])

    def test_other_keywords(self):
        with self.assertRaises(SystemExit):
            faults(1, {'minimum': 0})


class SchemaOfPlans(Scratch):
    def setUp(self):
        super().setUp()
        self.source = (TOP / plan_schema.SOURCE).read_text()
        self.schema = plan_schema.schema_of(self.source)

    def refuses(self, **fields):
        """The faults of a plan of one key, with these fields in the place of its own; None is no field."""
        key = {name: value for name, value in (KEY | fields).items() if value is not None}
        return faults({'key': [key]}, self.schema)

    def test_examples(self):
        for path in sorted((TOP / 'examples').glob('*.toml')):
            self.assertEqual(faults(tomllib.loads(path.read_text()), self.schema), [], path)

    def test_plans(self):
        self.assertEqual(self.refuses(), [])
        self.assertEqual(self.refuses(name=64 * '~', algorithm='HMAC-SHA256', usage=['mac-verify']), [])
        self.assertEqual(self.refuses(target='destroyed', reason='superseded'), [])
        self.assertEqual(faults({'key': 1000 * [KEY]}, self.schema), [])

    def test_plans_that_are_none(self):
        for plan in ({}, {'key': []}, {'key': KEY}, {'key': 1001 * [KEY]}, {'key': [KEY], 'keys': 1}):
            self.assertNotEqual(faults(plan, self.schema), [])

    def test_keys_that_are_none(self):
        for fields in ({'name': None}, {'name': ''}, {'name': 65 * 'x'}, {'name': 'a b'}, {'name': 'é'}, {'name': 7},
                       {'algorithm': 'aes'}, {'length': 129}, {'algorithm': 'HMAC-SHA256', 'length': 128},
                       {'length': '256'}, {'usage': 'sign'}, {'usage': []}, {'usage': ['sign', 'sign']},
                       {'usage': ['crypt']}, {'target': 'gone'}, {'target': 'revoked', 'reason': 'key-compromise'},
                       {'reason': 'superseded'}, {'target': 'discarded', 'reason': 'superseded'}, {'traget': 'active'}):
            self.assertNotEqual(self.refuses(**fields), [], fields)

    def test_words_that_differ(self):
        for name in SPECS:
            place = self.top / 'crates' / name
            place.parent.mkdir(parents=True, exist_ok=True)
            shutil.copy(TOP / 'crates' / name, place)
        self.write({str(plan_schema.SOURCE): self.source})
        self.assertEqual(printed(plan_schema.check_plan_schema), (0, []))
        for word, other, what in (('"HMAC-SHA256"]', '"HMAC"]', 'the algorithms'), ('1000', '999', 'the most keys'),
                                  ('"discarded"] } }', '"revoked"] } }', 'the targets without a reason'),
                                  ('"wrap-key"', '"wrap"', 'the usages'), ('[!-~]', '[ -~]', 'the characters of a name'),
                                  ('64', '65', 'the longest name'), ('"superseded"', '"replaced"', 'the reasons')):
            self.write({str(plan_schema.SOURCE): self.source.replace(word, other)})
            count, lines = printed(plan_schema.check_plan_schema)
            self.assertEqual((count, lines[0].split(': ')[1]), (1, what))


if __name__ == '__main__':
    unittest.main()
