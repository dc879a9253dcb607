"""The description of the API, and whether an answer is as it says."""
import functools
import json
import re

from harness import SERVICE
from run import Skipped


def as_json_schema(node):
    """OpenAPI's `nullable` in the words of JSON Schema."""
    if isinstance(node, list):
        return [as_json_schema(one) for one in node]
    if not isinstance(node, dict):
        return node
    made = {key: as_json_schema(value) for key, value in node.items() if key != "nullable"}
    return {"anyOf": [{"type": "null"}, made]} if node.get("nullable") else made


@functools.lru_cache(None)
def description():
    with open(f"{SERVICE}/web/openapi.json", encoding="utf-8") as it:
        return as_json_schema(json.load(it))


# What the description's routes have behind these words.
NAMES = {"jobs": "{job}", "view": "{job}", "records": "{id}", "files": "{file}"}


def route_of(path):
    """That of a path with a query or without."""
    return re.sub(f"/({'|'.join(NAMES)})/[^/]+", lambda it: f"/{it[1]}/{NAMES[it[1]]}", path.partition("?")[0])


def validate(told, content):
    try:
        import jsonschema
    except ImportError:
        raise Skipped("python3-jsonschema", "it is not here") from None
    jsonschema.validate(told, {**content["schema"], "components": description()["components"]})


def fits(method, route, status, told, kind="application/json"):
    """The status is one of the route's, and the answer is as the description has it, if it says something of this kind."""
    responses = description()["paths"][route][method.lower()]["responses"]
    assert str(status) in responses, (method, route, status, told)
    content = responses[str(status)].get("content", {}).get(kind)
    if content:
        validate(told, content)
