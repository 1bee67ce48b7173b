"""Resources in config dumps: what Envoy's /config_dump, the CSDS that grpcdebug prints, and control planes print."""

from describing.messages import URLS, WRAPPER
from describing.places import Problem

VERSIONS = ("version_info", "versionInfo", "version")
SKIPPED = ("error_state", "errorState", "warming_state", "warmingState", "draining_state", "drainingState")


class Found:
    """A resource that stands in a dump: its type, the version that stands beside it or above, and its place."""

    def __init__(self, url, version, value, path):
        self.url, self.version, self.value, self.path = url, version, value, path


def resources(value, version="", path=()):
    """All resources of the four types in a value, each with its `@type`, also in wrappers. Those that were refused, or
    aren't in use, are left out."""
    if isinstance(value, list):
        for place, one in enumerate(value):
            yield from resources(one, version, path + (place,))
        return
    if not isinstance(value, dict):
        return
    url = value.get("@type")
    if url == WRAPPER and isinstance(value.get("resource"), dict):
        yield Found(value["resource"].get("@type"), str(value.get("version") or version), value, path)
        return
    if url in URLS.values():
        yield Found(url, version, value, path)
        return
    version = next((str(value[name]) for name in VERSIONS if value.get(name)), version)
    for key, one in value.items():
        if key not in SKIPPED:
            yield from resources(one, version, path + (key,))


def encode_resources(document, messages, urls):
    """The resources of a dump that have one of these types, each with the bytes of its Any. A fault is told by its
    place in the dump."""
    messages.left_out.document = document
    try:
        return [(found, messages.any_bytes(found.value, found.path, found.url))
                for found in resources(document.value) if found.url in urls]
    except Problem as problem:
        problem.document = problem.document or document
        raise
    finally:
        messages.left_out.document = None
