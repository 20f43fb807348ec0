#!/usr/bin/env python3
"""Compares the schema of plans that `check --json-schema` prints with what a plan may be, and validates plans by it.

    tools/plan_schema.py              compares it with the words and limits in specs/ of kmip_plan and kmip_objects
    tools/plan_schema.py PLAN.toml..  says of each plan why the schema refuses it, or `ok`

Run it at the top of the repository. The exit status is 1 where something differs or is refused. The validator
knows the keywords that the schema uses, as JSON Schema, draft 2020-12, means them, and stops at any other.
"""
import json
import pathlib
import re
import sys
import tomllib

sys.dont_write_bytecode = True

from sources import CRATES

SOURCE = CRATES / 'kmip_program/src/plan_schema.rt'
PLAN_SPECS, OBJECT_SPECS = CRATES / 'kmip_plan/specs', CRATES / 'kmip_objects/specs'
DRAFT = 'https://json-schema.org/draft/2020-12/schema'
CONSTANT = re.compile(r'const PLAN_SCHEMA: &str = r##"(.*?)"##;', re.S)
TYPES = {'object': dict, 'array': list, 'string': str}
# What tells a reader something, and asks nothing of a plan.
SAYING = {'$schema', '$defs', 'title', 'description', 'then'}


def schema_of(text):
    """The schema in the text of its source."""
    found = CONSTANT.search(text)
    if not found:
        raise SystemExit(f'{SOURCE} has no constant PLAN_SCHEMA, a raw text')
    return json.loads(found[1])


class Validator:
    """Says why a schema refuses a value; a fault begins with where in the value it is."""

    def __init__(self, schema):
        self.whole = schema

    def faults(self, value, schema=None, place=''):
        """The faults of a value at a place, by this schema, or else the whole one."""
        schema = self.whole if schema is None else schema
        for keyword, wanted in schema.items():
            if keyword in SAYING:
                continue
            judge = getattr(self, 'judge_' + keyword.removeprefix('$'), None)
            if judge is None:
                raise SystemExit(f'the validator does not know the keyword {keyword}')
            yield from judge(value, wanted, schema, place)

    def fits(self, value, schema):
        return not any(True for _ in self.faults(value, schema))

    def judge_type(self, value, name, _, place):
        if not isinstance(value, TYPES[name]):
            yield f'{place}: it is no {name}'

    def judge_enum(self, value, words, _, place):
        if not any(are_equal(value, word) for word in words):
            yield f'{place}: it is none of {", ".join(map(str, words))}'

    def judge_const(self, value, word, _, place):
        yield from self.judge_enum(value, [word], _, place)

    def judge_required(self, value, names, _, place):
        if isinstance(value, dict):
            yield from (f'{place}: there is no {name}' for name in names if name not in value)

    def judge_properties(self, value, schemas, _, place):
        if isinstance(value, dict):
            for name, schema in schemas.items():
                if name in value:
                    yield from self.faults(value[name], schema, f'{place}/{name}')

    def judge_additionalProperties(self, value, allowed, schema, place):
        if allowed is not False:
            raise SystemExit('the validator knows additionalProperties as false alone')
        if isinstance(value, dict):
            yield from (f'{place}: there is {name}' for name in value if name not in schema['properties'])

    def judge_items(self, value, schema, _, place):
        if isinstance(value, list):
            for number, item in enumerate(value):
                yield from self.faults(item, schema, f'{place}/{number}')

    def judge_minItems(self, value, least, _, place):
        if isinstance(value, list) and len(value) < least:
            yield f'{place}: it has fewer than {least} items'

    def judge_maxItems(self, value, most, _, place):
        if isinstance(value, list) and len(value) > most:
            yield f'{place}: it has more than {most} items'

    def judge_uniqueItems(self, value, is_wanted, _, place):
        if is_wanted and isinstance(value, list):
            for number, item in enumerate(value):
                if any(are_equal(item, before) for before in value[:number]):
                    yield f'{place}/{number}: it is there twice'

    def judge_minLength(self, value, least, _, place):
        if isinstance(value, str) and len(value) < least:
            yield f'{place}: it has fewer than {least} characters'

    def judge_maxLength(self, value, most, _, place):
        if isinstance(value, str) and len(value) > most:
            yield f'{place}: it has more than {most} characters'

    def judge_pattern(self, value, pattern, _, place):
        # In the patterns of JSON Schema `$` is the end of the text alone.
        if isinstance(value, str) and not re.search(pattern.replace('$', r'\Z'), value):
            yield f'{place}: it does not match {pattern}'

    def judge_allOf(self, value, schemas, _, place):
        for schema in schemas:
            yield from self.faults(value, schema, place)

    def judge_not(self, value, schema, _, place):
        if self.fits(value, schema):
            yield f'{place}: it is what it may not be: {json.dumps(schema)}'

    def judge_if(self, value, schema, whole, place):
        if self.fits(value, schema):
            yield from self.faults(value, whole['then'], place)

    def judge_ref(self, value, path, _, place):
        if not path.startswith('#/'):
            raise SystemExit(f'the validator does not know the reference {path}')
        schema = self.whole
        for name in path.split('/')[1:]:
            schema = schema[name]
        yield from self.faults(value, schema, place)


def are_equal(value, other):
    """Whether two values are one in JSON, where true is no number, and 256.0 is 256."""
    return isinstance(value, bool) == isinstance(other, bool) and value == other


def definition(path, name):
    """The lines of a definition of specs/."""
    found = re.search(rf'^(?:abbrev|unfoldable) pub {name} :.*?(?=^\n|\Z)', path.read_text(), re.M | re.S)
    if not found:
        raise SystemExit(f'{path} has no definition {name}')
    return found[0]


def words_in(path, name):
    """The words that a definition names, each once."""
    return list(dict.fromkeys(re.findall(r'codes "([^"]*)"', definition(path, name))))


def numbers_in(path, name):
    """The numbers that a definition names, in their order."""
    return [int(number, 0) for number in re.findall(r'\b(?:0x[0-9A-F]+|\d+)\b', definition(path, name))]


def targets_without_reason():
    """The words of the targets on whose way there is no Revoke."""
    words = dict(re.findall(r'^target_word (\w+) = codes "(\w+)"$', definition(PLAN_SPECS / 'TargetWords.antt', 'target_word'), re.M))
    chains = re.findall(r'^chain (\w+) = (.*)$', definition(PLAN_SPECS / 'Chains.antt', 'chain'), re.M)
    return [words[target] for target, chain in chains if 'Revoke' not in chain.split()]


def differences(schema):
    """What the schema says otherwise than the definitions of a plan."""
    key = schema['$defs']['key']
    fields, keys = key['properties'], schema['properties']['key']
    words, objects = PLAN_SPECS / 'Words.antt', OBJECT_SPECS / 'Ranges.antt'
    first, last = map(chr, numbers_in(objects, 'is_name_byte'))
    of_hmac, without_reason = key['allOf']
    for what, is_so, wanted in [
            ('the draft', schema['$schema'], DRAFT),
            ('the fields beside the keys', list(schema['properties']), words_in(PLAN_SPECS / 'Tables.antt', 'is_top_field')),
            ('the fields of a key', list(fields), words_in(PLAN_SPECS / 'Tables.antt', 'is_key_field')),
            ('the fields that a key needs', key['required'], words_in(PLAN_SPECS / 'Reading.antt', 'all_there')),
            ('the most keys', [keys['maxItems']], numbers_in(PLAN_SPECS / 'Limits.antt', 'most_keys')),
            ('the longest name', [fields['name']['maxLength']], numbers_in(objects, 'most_name_bytes')),
            ('the characters of a name', fields['name']['pattern'], f'^[{first}-{last}]*$'),
            ('the algorithms', fields['algorithm']['enum'], words_in(words, 'algorithm_of_word')),
            ('the lengths', fields['length']['enum'], numbers_in(objects, 'is_aes_length')),
            ('the lengths of HMAC-SHA256', [of_hmac['then']['properties']['length']['const']], numbers_in(objects, 'is_length')),
            ('the usages', fields['usage']['items']['enum'], words_in(words, 'usages')),
            ('the targets', fields['target']['enum'], words_in(PLAN_SPECS / 'TargetWords.antt', 'target_of_word')),
            ('the reasons', fields['reason']['enum'], words_in(words, 'reason_of_word')),
            ('the targets without a reason', without_reason['if']['properties']['target']['enum'], targets_without_reason())]:
        if is_so != wanted:
            yield f'{SOURCE}: {what}: {is_so}, in the place of {wanted}'


def check_plan_schema():
    """Prints what the schema says otherwise, and returns how many differences there are."""
    faults = list(differences(schema_of(SOURCE.read_text())))
    for fault in faults:
        print(fault)
    return len(faults)


def judge_plans(paths):
    """Prints why each plan is refused, or that it is not; the exit status is 1 where one is."""
    validator, refused = Validator(schema_of(SOURCE.read_text())), 0
    for path in paths:
        faults = list(validator.faults(tomllib.loads(pathlib.Path(path).read_text())))
        refused += bool(faults)
        print(*(f'{path}:{fault}' for fault in faults or [' ok']), sep='\n')
    return 1 if refused else 0


def main(words):
    return judge_plans(words) if words else 1 if check_plan_schema() else 0


if __name__ == '__main__':
    sys.exit(main(sys.argv[1:]))
