"""Changes of the second model, each in one place, which tests/compare_models has to notice: what a change does, a text of the model, and the text in
its place. CHANGES_OF_LOGS are of what logs alone can show."""
import os
import sys
import types

DONE_SAVEPOINT = "        if record.kind == SAVEPOINT:\n            return 0"
HELD = "if len(self.pending({})) >= self.config.most_pending:\n            return"
CHANGES = [
    ("a late acknowledgement hands out known files too", "handed = sorted(set(fresh) - self.known())", "handed = sorted(set(fresh))"),
    ("the oldest checkpoint is kept, not the newest", "self.done(CHECKPOINT)[:1]", "self.done(CHECKPOINT)[-1:]"),
    ("a file counts once for each record", "record.named().count(file) +", "(file in record.named()) +"),
    ("a decline counts twice", "self.failures += 1", "self.failures += 2"),
    ("an expired record releases nothing", "        self.release(before)\n        return f\"tick", "        return f\"tick"),
    ("a record expires one millisecond later", "self.config.timeout <= t", "self.config.timeout < t"),
    ("an expired savepoint is a failure", "sum(it.kind == CHECKPOINT for it in expired)", "len(expired)"),
    ("a pending record pins nothing", "set(choice.named()) if choice else set()", "set()"),
    ("a record keeps its pins when it is done", "        record.pins = set()\n", ""),
    ("without a checkpoint any savepoint is the choice", "checkpoints = self.done(CHECKPOINT)\n", "checkpoints = self.done(CHECKPOINT) or self.done(SAVEPOINT)\n"),
    ("a completed savepoint begins the pause", DONE_SAVEPOINT, DONE_SAVEPOINT.replace("return 0", "self.last = t\n            return 0")),
    ("a completed savepoint ends the failures", DONE_SAVEPOINT, DONE_SAVEPOINT.replace("return 0", "self.failures = 0\n            return 0")),
    ("a checkpoint subsumes savepoints", "self.drop([it for it in self.pending(CHECKPOINT) if", "self.drop([it for it in self.pending() if"),
    ("a completed checkpoint leaves the base", "self.failures, self.last, self.base = 0, t, None", "self.failures, self.last = 0, t"),
    ("a pending savepoint holds a checkpoint back", HELD.format("CHECKPOINT"), HELD.format("")),
    ("with a pause several checkpoints may be pending", "return 1 if self.pause > 0 else self.at_once", "return self.at_once"),
    ("the due moment does not wait for the pause", "return max(self.interval, self.pause)", "return self.interval"),
    ("savepoints stay when the job fails over", "self.drop(self.pending())\n        self.mode = FAILED", "self.drop(self.pending(CHECKPOINT))\n        self.mode = FAILED"),
    ("a roll back keeps the checkpoints", "            self.drop(self.done(CHECKPOINT))\n            self.base", "            self.base"),
    ("a restore leaves the due moment", "self.last = RUNNING, 0, None\n        self.due = t + self.config.wait", "self.last = RUNNING, 0, None"),
    ("a cancel keeps the base", "self.base, self.mode = None, CANCELLED", "self.mode = CANCELLED"),
    ("moments go back", "return max(now, self.seen)", "return now"),
    ("what is released comes in falling order", "sorted(before - self.used())", "sorted(before - self.used(), reverse=True)"),
    ("a file in the outbox may be named again", "return self.used().union(self.waiting, self.taken)", "return self.used()"),
    ("a file that only a pin holds is gone", "set(reused) - self.used()", "set(reused).difference(*(it.named() for it in self.records.values()))"),
    ("the greatest name that is taken is told", "min(taken)", "max(taken)"),
    ("files are looked at before the subtask", "self.expect_missing(record, subtask)\n        self.expect_files(fresh, reused)",
     "self.expect_files(fresh, reused)\n        self.expect_missing(record, subtask)"),
    ("an undeleted file waits first", "self.waiting.append(file)", "self.waiting.insert(0, file)"),
]  # fmt: skip
CHANGES_OF_LOGS = [
    ("a restore leaves the last completion", "self.mode, self.failures, self.last = RUNNING, 0, None", "self.mode, self.failures = RUNNING, 0"),
    ("a longer interval holds at once", "self.due = min(self.due, t + config.wait)", "self.due = t + config.wait"),
    ("failures count on above what is tolerated", "self.failures = min(self.failures, config.tolerable)", "pass"),
    ("a trigger leaves the due moment", "return f\"tick expired 0 triggered {self.begin_checkpoint(t)}\"",
     "return f\"tick expired 0 triggered {self.begin_record(CHECKPOINT, t)}\""),
    ("names outlive their term", "max(self.next, first), set()", "max(self.next, first), self.reserved"),
    ("an advance lowers the term", "max(self.term, term) + 1", "(term or self.term) + 1"),
    ("an advance lowers the next name", "max(self.next, first), set()", "first or self.next, set()"),
    ("names stay reserved when they are acknowledged", "        self.names.reserved.difference_update(values[3])\n", ""),
    ("a decline needs no term", "if word in (\"ack\", \"decline\"):", "if word == \"ack\":"),
    ("a cancelled job reserves names", "if mode == CANCELLED:", "if False:"),
    ("the first file that is not reserved is told, in the order of the line", "for file in sorted(fresh):", "for file in fresh:"),
    ("a forfeit forgets nothing", "self.reserved.difference_update(names)", "pass"),
]  # fmt: skip


def changed(old, new):
    """The function answers_of over a model in which this text is another."""
    here, modules, places = os.path.dirname(os.path.abspath(__file__)), {}, 0
    kept = {name: sys.modules[name] for name in ("second_model", "second_script")}
    for name in kept:
        with open(f"{here}/{name}.py") as file:
            source = file.read()
        places += source.count(old)
        modules[name] = sys.modules[name] = types.ModuleType(name)
        exec(compile(source.replace(old, new), name, "exec"), modules[name].__dict__)
    sys.modules.update(kept)
    if places != 1:
        sys.exit(f"tests/model_changes.py: {old!r} stands in {places} places of the model, and a change has one")
    return modules["second_script"].answers_of
