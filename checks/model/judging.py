"""Whether an answer of `repair` is right by the plain model: which text it may write, or which line."""
from .covers import Problem, repaired


def differences(text, status, output, notes):
    """What is wrong with an answer for a text of the language within the limits."""
    due_status, _, due_notes = repaired(text)
    found = []
    if status != due_status:
        found.append(f"status {status}, due {due_status}")
    if notes != due_notes:
        found.append(f"notes {notes[:200]!r}, due {due_notes!r}")
    if status != 0 or found:
        return found + (["output of a refused repair"] if status != 0 and output else [])
    problem = Problem(text)
    own = problem.own()
    if own is not None and problem.is_cover(own):
        return [] if output == text else ["own frees are a cover, and the output is not the input"]
    choice = Problem(output).own()
    if choice is None or not problem.is_cover(choice):
        return ["the frees of the output are no cover"]
    return [] if problem.edited(choice) == output else ["the output is not the edited input"]
