"""Compares what a program answers to questions, a line each, with what is wanted (`questions.rs` of the packages' `probe` lists them)."""

import subprocess

# How much of a question and of an answer is shown.
SHOWN_LENGTH = 300


def compared(words, asked):
    """For the questions as a whole, and for each with the answer that is wanted, None or what is wrong."""
    asked = list(asked)
    content = "".join(f"{question}\n" for question, _ in asked).encode()
    finished = subprocess.run(words, input=content, stdout=subprocess.PIPE)
    found = finished.stdout.decode().splitlines()
    is_whole = finished.returncode == 0 and len(found) == len(asked)
    yield None if is_whole else f"{len(found)} answers to {len(asked)} questions, status {finished.returncode}"
    for (question, wanted), answer in zip(asked, found):
        shown = (text[:SHOWN_LENGTH] for text in (question, answer, wanted))
        yield None if answer == wanted else "{}: {}, not {}".format(*shown)


def beside_model(words, word, cases, texts, model):
    """The same of the questions about texts that this word begins. The model says what is wanted of each text, and has to be right about the
    cases, texts with their answers, too."""
    asked = list(cases)
    for text, wanted in asked:
        found = model(text)
        yield None if found == wanted else f"the model has {found} of {text}, not {wanted}"
    asked += [(text, model(text)) for text in texts]
    yield from compared(words, [(f"{word} {text.hex() or '-'}", wanted) for text, wanted in asked])
