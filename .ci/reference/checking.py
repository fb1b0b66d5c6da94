"""What `tools/check_certificate.py` says of an answer's text: a checker that stands apart from the program and from all else here."""

import importlib.util
import pathlib


def loaded():
    path = pathlib.Path(__file__).resolve().parent.parent.parent / "tools" / "check_certificate.py"
    spec = importlib.util.spec_from_file_location("check_certificate", path)
    module = importlib.util.module_from_spec(spec)
    spec.loader.exec_module(module)
    return module


TOOL = loaded()


def check_texts(model_text, answer_text, name):
    """The status and the line, of a model text that can be read and an answer text of this name."""
    try:
        model = TOOL.Model("M", model_text)
        TOOL.check(model, TOOL.Answer(name, answer_text, model))
    except TOOL.Verdict as verdict:
        line, status = verdict.args
        return status, line
    return 0, "accepted"
