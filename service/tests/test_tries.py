"""Which tests that failed get a second try, alone."""
import contextlib
import io
import sys


def tried(done, alone):
    """What the runner makes of failures beside others, if each test of `alone` passes alone."""
    # (this process runs one module by it)
    run = sys.modules["run"]
    asked, before = [], run.in_process

    def in_process(name, words):
        asked.append((name, words))
        return [], (1, 0, 0) if words[0] in alone else (0, 1, 0)

    run.in_process = in_process
    try:
        with contextlib.redirect_stdout(io.StringIO()) as said:
            return run.tried_again(done), asked, said.getvalue()
    finally:
        run.in_process = before


def module(*failed, ended_badly=False):
    return [f"FAIL {title}" for title in failed], (7, len(failed) + ended_badly, 0)


def test_a_few_are_tried_alone_and_many_are_not():
    passed, asked, said = tried([module("limits: a queue is full"), module("page: it is seen")], ["test_page.test_it_is_seen"])
    assert passed == 1 and len(asked) == 2, asked
    assert "second try: page: it is seen failed beside others, and passed alone" in said and said.count("second try") == 1, said
    assert tried([module("one: a", "one: b", "one: c")], ["test_one.test_a"])[:2] == (0, [])
    assert tried([module("one: a", ended_badly=True)], ["test_one.test_a"])[:2] == (0, [])
