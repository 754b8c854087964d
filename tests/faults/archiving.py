"""Faults in the archive: its workers, its index and its report."""
from __future__ import annotations

from faults.fault import PACKAGE, PYTHON_TESTS, Fault
from faults.python import fault

PROCESSES = "archive_workers::ends_its_workers_if_killed_at_once"
REPORT_PAGE = "archive_report::reports_an_archive_as_a_page"
POLICY = "default-src 'none'; style-src 'unsafe-inline'"

FAULTS = [
    fault(
        "archive/workers.py",
        "for file in batch for block in self._read([file])]",
        "for file in batch[1:] for block in self._read([file])]",
        "archive_workers::loses_only_the_file_that_kills_processes",
    ),
    fault(
        "archive/workers.py",
        "for _ in range(2):",
        "for _ in range(1):",
        "archive_workers::continues_after_a_worker_process_dies",
    ),
    # (workers outlive the process that started them, if not for ever)
    fault(
        "archive/workers.py",
        "prctl(1, signal.SIGKILL)",
        "prctl(1, 0)\n    time.sleep(90)",
        PROCESSES,
    ),
    fault(
        "archive/index.py",
        "fcntl.LOCK_EX | fcntl.LOCK_NB",
        "fcntl.LOCK_SH | fcntl.LOCK_NB",
        "archive_index::rejects_files_that_are_no_index",
    ),
    fault(
        "archive/updating.py",
        "and old_changed == changed",
        "and old_changed >= changed",
        "archive_index::reads_only_new_or_changed_files",
    ),
    fault(
        "archive/query.py",
        'return f"{tables} WHERE f.gone = 0{where}", values',
        'return f"{tables} WHERE f.gone >= 0{where}", values',
        "archive_numbers::counts_nothing_of_files_that_are_gone",
    ),
    fault(
        "archive/rows.py",
        "*(size, subfiles, announced, counted),",
        "*(size, subfiles, counted, announced),",
        "archive_numbers::stores_the_words_of_a_story",
    ),
    fault(
        "archive/rows.py",
        "(second, now.microsecond) > (expires, 0)",
        "(second, now.microsecond) >= (expires, 0)",
        "archive_numbers::holds_and_expires_at_exact_seconds",
    ),
    fault(
        "archive/report.py",
        "SELECT e.sent % 86400 / 3600",
        "SELECT (e.sent + 3600) % 86400 / 3600",
        "archive_numbers::counts_sizes_days_and_hours",
    ),
    fault(
        "archive/report.py",
        "return int(max(0, size - 1)).bit_length()",
        "return int(max(0, size - 1) // 2).bit_length()",
        "archive_numbers::counts_sizes_days_and_hours",
    ),
    fault(
        "archive/report.py",
        'self.number(f"SELECT sum(e.size) {FILES}")',
        'self.number("SELECT sum(size) FROM files")',
        "archive_numbers::counts_nothing_of_files_that_are_gone",
    ),
    fault(
        "archive/page.py",
        "urllib.parse.quote(os.fsencode(self._folder.name))",
        "self._folder.name",
        "archive_numbers::writes_fifty_pages_and_escapes_links",
    ),
    fault("archive/report.html", POLICY, POLICY.replace("'none'", "*"), REPORT_PAGE),
    Fault(
        f"{PACKAGE}/archive/report.html",
        f'<meta http-equiv="Content-Security-Policy" content="{POLICY}">',
        "",
        f"{PYTHON_TESTS}/test_archive_report.py::test_reports_an_archive_as_a_page",
    ),
    fault(
        "auditing.py",
        "LAST_SECOND = 253_402_207_200",
        "LAST_SECOND = 253_402_207_199",
        "auditing::accepts_instants_up_to_the_last",
    ),
    fault(
        "auditing.py",
        "        expires if has_expires else None,",
        "        expires + 1 if has_expires else None,",
        "auditing::reads_the_instants_of_copy",
    ),
    fault(
        "errors.py",
        "first.setdefault((record, number), octets)",
        "first[record, number] = octets",
        "receiver::keeps_the_first_of_each_dataset_of_an_id",
    ),
]
