"""The wheel schema of examples/ by python3's jsonschema: speed.py FILE... prints how many files it accepts and refuses."""

import sys

import jsonschema
import yaml

SCHEMA = {
    "type": "object",
    "additionalProperties": False,
    "required": ["counts", "detents", "step"],
    "properties": {
        "counts": {"type": "number", "minimum": 1, "maximum": 16},
        "detents": {"type": "number", "minimum": 1, "maximum": 96},
        "step": {"type": "number", "minimum": -128, "maximum": 127},
        "reversed": {"type": "boolean"},
    },
}

# the reader in C, where the package has it
LOADER = getattr(yaml, "CSafeLoader", yaml.SafeLoader)
VALIDATOR = jsonschema.Draft202012Validator(SCHEMA)
accepted = 0
for name in sys.argv[1:]:
    with open(name, encoding="utf-8") as file:
        accepted += VALIDATOR.is_valid(yaml.load(file, LOADER))
files = len(sys.argv) - 1
print(f"{files} files: {accepted} accepted, {files - accepted} refused")
