"""Faults in the explanations. A test is named by its file and its name, without `test_`."""
from __future__ import annotations

from faults.python import fault

NUMBERS = "explain_numbers::prints_the_numbers_of_the_file"
ROWS = "explain_numbers::shows_the_bytes_of_the_file_on_pages"
CORPUS = "explain_corpus::explains_what_people_bring"
HINTS = "explain_hints::prints_each_hint_only_where_it_applies"
POLICY = "explain_browser::detects_requests_and_console_errors"
CHANGES = "explain_json::suggests_changes_that_help"
PLACE = "explain_json::counts_from_the_envelope_and_in_the_file"
ITEMS = "explain_json::lists_the_datasets_with_their_text"
SETS = "explain_texts::decodes_the_sets_of_the_register"
GUESSES = "explain_texts::guesses_an_encoding_that_is_not_declared"
EVIDENCE = "explain_pages::has_a_footer_that_is_evidence"

FAULTS = [
    fault("explain/page.py", "{at + row:08X}", "{row:08X}", ROWS),
    fault(
        "explain/page.py",
        "html.escape(plain(bytes([value])))",
        "html.escape(html.escape(plain(bytes([value]))))",
        ROWS,
    ),
    fault("explain/page.py", "texts.append(text)", "texts.insert(0, text)", ROWS),
    fault(
        "explain/findings.py",
        "missing = here.at + here.head + here.size - self._octet",
        "missing = here.at + here.head + here.size - self._octet + 1",
        NUMBERS,
    ),
    fault(
        "explain/findings.py",
        "last = f\"the last {counted(rest, 'octet')}{what}\"",
        "last = f\"the last {counted(rest - 1, 'octet')}{what}\"",
        NUMBERS,
    ),
    fault(
        "explain/findings.py",
        "which = octets_in_words(fits, ",
        "which = octets_in_words([octet + 1 for octet in fits], ",
        NUMBERS,
    ),
    fault("explain/case.py", 'b"235959+0000"', 'b"000000+0000"', NUMBERS),
    fault(
        "explain/sections.py",
        "{rule.least:,} to {rule.greatest:,}",
        "{rule.least:,} to {rule.greatest - 1:,}",
        NUMBERS,
    ),
    fault(
        "explain/sections.py", "here.size), 'big'):,}.\"", "here.size), 'little'):,}.\"", NUMBERS
    ),
    fault(
        "explain/sections.py",
        'f"octet {begin + nth:,} ({name(octet)})"',
        'f"octet {begin + nth - 1:,} ({name(octet)})"',
        NUMBERS,
    ),
    fault(
        "explain/walk.py",
        "hidden = set(story[lines:-lines])",
        "hidden = set(story[lines - 1 : -lines])",
        "explain_numbers::prints_both_ends_of_a_long_story",
    ),
    fault("explain/case.py", "differ by {difference:,}", "differ by {difference + 1:,}", NUMBERS),
    fault(
        "explain/locating.py",
        "count = begin + size - at\n",
        "count = begin + size - at + 1\n",
        CORPUS,
    ),
    fault(
        "explain/locating.py",
        "{hole[0]:,} to {hole[1] - 1:,} are NUL, a hole",
        "{hole[0]:,} to {hole[1]:,} are NUL, a hole",
        NUMBERS,
    ),
    fault(
        "explain/reasons.py",
        "service, number, date = refusal.id",
        "service, date, number = refusal.id",
        NUMBERS,
    ),
    fault(
        "explain/corrections.py",
        'yield _date(f"{year}{second}{first}", "if it is day',
        'yield _date(f"{year}{first}{second}", "if it is day',
        CORPUS,
    ),
    fault(
        "designations.py",
        '0x4C: ("iso8859-5", 144)',
        '0x4C: ("iso8859-7", 144)',
        "explain_numbers::lists_all_lines_of_a_story",
    ),
    fault(
        "explain/channels.py",
        "if channel.change(octets) != octets:\n        return None",
        "if channel.change(octets) == octets:\n        return None",
        CORPUS,
    ),
    fault(
        "explain/recognition.py",
        '(b"\\x1f\\x8b", Kind("a gzip file"',
        '(b"\\x1f\\x8a", Kind("a gzip file"',
        CORPUS,
    ),
    fault(
        "explain/findings.py",
        "return not all((here.record, number) in lacking for number in fix.octets)",
        "return False",
        "explain_errors::lists_the_likeliest_fix_first",
    ),
    fault(
        "explain/sections.py",
        "CHANGES = 5",
        "CHANGES = 6",
        "explain_corpus::prints_at_most_five_changes",
    ),
    fault(
        "explain/page.py",
        "<code>{case.sha_256}</code>",
        "<code>{case.sha_256[:-1]}</code>",
        "explain_pages::has_a_footer_that_is_evidence",
    ),
    # The policy of pages, and how far changes reach.
    fault("explain/page.py", "policy = \"default-src 'none';", 'policy = "default-src *;', POLICY),
    fault(
        "explain/page.py",
        """        f'<meta http-equiv="Content-Security-Policy" content="{policy}">'\n""",
        "",
        POLICY,
    ),
    fault(
        "explain/findings.py",
        "reach = outcome.first - len(before) + at\n",
        "reach = outcome.first - len(before) + at + 1\n",
        HINTS,
    ),
    fault(
        "explain/findings.py",
        "elif reach >= at + 5 and not self._tries.at:",
        "elif reach >= at and not self._tries.at:",
        HINTS,
    ),
    fault(
        "explain/sections.py",
        "received = at - here.at - (here.head if is_in_data else 0)",
        "received = at - here.at",
        NUMBERS,
    ),
    # The numbers of reasons and of the whole file.
    fault(
        "explain/reasons.py",
        "it counts {here.size:,}; at most {rule.greatest:,}, or",
        "it counts {here.size:,}; at most {rule.greatest + 1:,}, or",
        NUMBERS,
    ),
    fault(
        "explain/reasons.py",
        "missing = sizes.announced - sizes.total",
        "missing = sizes.announced - sizes.total - 1",
        NUMBERS,
    ),
    fault(
        "explain/reasons.py",
        "size = here.size if cause == 22 else total + here.size",
        "size = here.size if cause == 22 else total",
        NUMBERS,
    ),
    fault(
        "explain/findings.py",
        "outcome = self._judge(self.octets[at:])\n            if not outcome.envelopes:",
        "outcome = self._judge(self.octets[at:])\n            at -= 1\n"
        "            if not outcome.envelopes:",
        NUMBERS,
    ),
    fault(
        "explain/findings.py",
        "first at octet {first:,}: octets",
        "first at octet {first + 1:,}: octets",
        NUMBERS,
    ),
    fault(
        "explain/trying.py",
        "ends = count + len(rows), rows",
        "ends = count + len(rows) + 1, rows",
        NUMBERS,
    ),
    fault(
        "explain/case.py", "envelope {self.refusal.nth:,} ref", "envelope {self.count} ref", NUMBERS
    ),
    fault(
        "explain/sections.py",
        "octets = sum(item.size or 0 for item in items)",
        "octets = sum(item.length for item in items)",
        NUMBERS,
    ),
    # JSON.
    fault(
        "explain/as_json.py",
        '"octet_in_file": refusal.octet_in_file',
        '"octet_in_file": refusal.octet',
        PLACE,
    ),
    fault(
        "explain/as_json.py",
        "bool(case.refusal and found.nth == case.refusal.nth)",
        "bool(case.refusal)",
        PLACE,
    ),
    fault(
        "explain/as_json.py",
        "listed[-1].nth - len(listed) if listed",
        "listed[-1].nth - len(listed) + 1 if listed",
        "explain_json::says_how_many_envelopes_are_left_out",
    ),
    fault("explain/as_json.py", '"removed": each.edit.cut', '"removed": len(put)', CHANGES),
    fault(
        "explain/as_json.py",
        '"last": each.fix.last, "values"',
        '"last": each.fix.last + 1, "values"',
        CHANGES,
    ),
    fault(
        "explain/as_json.py",
        'made["accepts_envelope"] = each.is_whole',
        'made["accepts_envelope"] = each.outcome.is_all',
        CHANGES,
    ),
    fault("explain/as_json.py", 'made["count"] = item.size', 'made["count"] = item.length', ITEMS),
    fault(
        "explain/as_json.py",
        'made["text_octets"] = item.text_size',
        'made["text_octets"] = len(item.text)',
        "explain_json::says_how_long_a_line_is",
    ),
    # Encodings, and what is inside of text.
    fault("designations.py", '0x62: ("iso8859-15", 203)', '0x62: ("iso8859-1", 203)', SETS),
    fault("designations.py", '0x43: ("euc_kr", 149)', '0x43: ("euc_jp", 149)', SETS),
    fault("explain/charsets.py", "any(0x80 <= octet < 0xA0", "any(0x81 <= octet < 0x9F", GUESSES),
    fault(
        "explain/charsets.py",
        "(text if front.isascii() else front)",
        "front",
        GUESSES,
    ),
    fault(
        "explain/case.py",
        "item.text if len(item.text) == item.text_size else charsets.complete(item.text)",
        "item.text",
        "explain_texts::guesses_the_encoding_of_long_lines",
    ),
    fault(
        "explain/charsets.py",
        'return f"\\u2068{text}\\u2069"',
        "return text",
        "explain_texts::isolates_right_to_left_text",
    ),
    fault(
        "explain/charsets.py",
        "range(min(4, len(octets)))",
        "range(1)",
        "explain_texts::cuts_text_between_characters",
    ),
    fault(
        "explain/recognition.py",
        'at += 2 if body[at : at + 2] == b"\\r\\n" else 1',
        "at += 1",
        "explain_texts::reads_chunks_of_a_body",
    ),
    fault(
        "explain/recognition.py",
        "or is_octal and int(digits, 8) == size",
        "",
        "explain_texts::reads_dumps",
    ),
    fault(
        "explain/recognition.py",
        'name = "utf-16-be" if octets[:1] == b"\\0" else name',
        "pass",
        "explain_texts::reads_wide_text",
    ),
    fault(
        "explain/reasons.py",
        'known = " ".join("?" if part',
        'known = "".join("?" if part',
        "explain_texts::says_what_to_ask_for_last",
    ),
    # Pages and progress.
    fault(
        "explain/page.py",
        "half, from_end = most // 2, sizes[::-1]",
        "half, from_end = most, sizes[::-1]",
        "explain_texts::keeps_both_ends_of_long_parts",
    ),
    fault(
        "explain/page.py",
        'cells = [f"{found.at:,}", f"{found.length:,}", *parts]',
        'cells = [f"{found.length:,}", f"{found.at:,}", *parts]',
        "explain_pages::lists_the_envelopes_of_the_file",
    ),
    fault(
        "explain/page.py",
        "counted(found.nth - before - 1, ",
        "counted(found.nth - before, ",
        "explain_pages::lists_the_envelopes_of_the_file",
    ),
    fault(
        "explain/page.py",
        "begin, end = max(0, mark - BEFORE), ",
        "begin, end = max(0, mark - BEFORE) + 1, ",
        "explain_pages::shows_the_bytes_around_the_error",
    ),
    fault(
        "explain/page.py",
        "now(datetime.timezone.utc)",
        "now()",
        "explain_pages::gives_the_time_in_utc",
    ),
    fault("explain/page.py", "{counted(case.source.size, 'octet')}</p>", "</p>", EVIDENCE),
    fault(
        "explain/progress.py",
        "{at * 100 // self._size:3} %",
        "{at * 100 // self._size + 1:3} %",
        "explain_json::reports_progress_on_a_terminal",
    ),
    fault(
        "explain/progress.py",
        "self._bar.update(at - self._at)",
        "self._bar.update(at)",
        "explain_json::updates_a_bar_by_what_was_read",
    ),
    fault(
        "explain/progress.py",
        "size >= LEAST and",
        "size > LEAST and",
        "explain_json::reports_progress_on_a_terminal",
    ),
]
