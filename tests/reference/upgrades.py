"""The upgrade of a script to format 2. Written from docs/FORMATS.md, "The upgrade of a script"."""
from . import fields, formats, json_text, scripts


def upgrade(data):
    """The script of format 2 that stands for the script that these bytes are, as bytes."""
    fields.check_size(data)
    script = scripts.script_of(json_text.read(data))
    made = json_text.write(script.value if script.format is formats.TWO else upgraded(script.value))
    fields.check_size(made + b"\n")
    return made


def upgraded(value):
    """A value of format 1 in format 2: another number, and each data in digits. All else is as it was."""
    setup = {**value["setup"], "held": [with_digits(item) for item in value["setup"]["held"]]}
    return {"format": 2, "setup": setup, "events": [upgraded_event(event) for event in value["events"]]}


def upgraded_event(event):
    if event["do"] == "client" and event["request"]["kind"] == "set":
        return {**event, "request": with_digits(event["request"])}
    return event


def with_digits(item):
    return {**item, "data": formats.TWO.shown(formats.ONE.data(item["data"]))}


def says_the_same(data, other):
    """Whether the scripts of these bytes and of others are of one setup and of the same events."""
    script, its_upgrade = (scripts.script_of(json_text.read(it)) for it in (data, other))
    return (script.setup, script.events) == (its_upgrade.setup, its_upgrade.events)
