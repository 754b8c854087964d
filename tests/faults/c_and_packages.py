"""Faults in the C interface and in the packages."""
from __future__ import annotations

from faults.fault import PACKAGES, PYTHON_TESTS, C, Fault

HEADER = f"{C}/iim.h"
GUIDES, MANUALS = "tests/documents/test_guides.py", "tests/documents/test_manuals.py"
DECLARED = f"{PYTHON_TESTS}/test_header.py"
STATUSES = f"{DECLARED}::test_has_functions_and_statuses_of_the_header"
BUFFERS = f"{C}/test_harness.py::test_passes_the_checks_of_its_buffers"
KILLS = f"{C}/test_programs.py::test_receiver_survives_kills"
FAULTS = [
    Fault(HEADER, "IIM_TICKET_SIZE (65536 + 6 *", "IIM_TICKET_SIZE (65536 + 5 *", BUFFERS),
    Fault(f"{C}/iim_strerror.h", '"a buffer is too short"', '"an allocation failed"', BUFFERS),
    Fault(f"{C}/receiver.c", "ftruncate(output, (off_t)now.written) != 0 || ", "", KILLS),
    Fault(f"{C}/receiver.c", "now->offset += answer.used;", "now->offset += 1;", KILLS),
    Fault(f"{C}/receiver.c", "            now->at = 0;\n", "", KILLS),
    Fault(
        f"{C}/sender.c",
        "write(receiver, stream + offset,",
        "write(receiver, stream,",
        f"{C}/test_programs.py::test_sender_sends_from_the_offset",
    ),
    Fault(
        HEADER,
        "    uint64_t mode;      /**",
        "    uint32_t mode;      /**",
        f"{DECLARED}::test_declares_the_structs_of_the_header",
    ),
    Fault(
        HEADER,
        "    uint64_t subfile;   /**< 7:20: the largest size of a subfile */\n    uint64_t announced; /**< 7:90: the announced size */",  # noqa: E501
        "    uint64_t announced; /**< 7:90: the announced size */\n    uint64_t subfile;   /**< 7:20: the largest size of a subfile */",  # noqa: E501
        f"{DECLARED}::test_declares_the_structs_of_the_header",
    ),
    Fault(
        HEADER,
        "typedef struct iim_answer {\n    uint8_t status;",
        "typedef struct iim_answer {\n    uint32_t status;",
        f"{DECLARED}::test_declares_the_structs_of_the_header",
    ),
    Fault(
        HEADER,
        "#define IIM_VERSION 1\n",
        "#define IIM_VERSION 2\n",
        f"{DECLARED}::test_has_functions_and_statuses_of_the_header",
    ),
    Fault(HEADER, "    IIM_MORE = 1, ", "    IIM_MORE = 2, ", STATUSES),
    Fault(HEADER, "    IIM_NONE = 4, ", "    IIM_NONE = 5, ", STATUSES),
    Fault(HEADER, "    IIM_BAD_INSTANT = 9, ", "    IIM_BAD_INSTANT = 8, ", STATUSES),
    Fault(
        HEADER,
        " * @param limits  limits on records 1 and 2\n",
        "",
        f"{GUIDES}::test_documents_each_parameter_of_the_header",
    ),
    Fault(
        HEADER,
        " * @param octets  the bytes to check\n",
        " * @param bytes   the bytes to check\n",
        f"{GUIDES}::test_documents_each_parameter_of_the_header",
    ),
    Fault(
        HEADER,
        "void iim_check(iim_limits limits, const uint8_t *octets, size_t len, iim_answer *answer);",
        "void iim_checks(iim_limits limits, const uint8_t *octets, size_t len, iim_answer *answer);",  # noqa: E501
        f"{GUIDES}::test_lists_each_function_of_the_header_as_a_symbol",
    ),
    Fault(
        f"{PACKAGES}/debian/libiim1.symbols",
        " iim_admits@Base 2\n iim_audit@Base 2\n",
        " iim_audit@Base 2\n iim_admits@Base 2\n",
        f"{GUIDES}::test_lists_each_function_of_the_header_as_a_symbol",
    ),
    Fault(
        f"{PACKAGES}/debian/libiim1.symbols",
        " iim_audit@Base 2\n",
        "",
        f"{GUIDES}::test_lists_each_function_of_the_header_as_a_symbol",
    ),
    Fault(
        f"{PACKAGES}/debian/libiim1.symbols",
        " iim_check@Base 2\n",
        " iim_checks@Base 2\n",
        f"{GUIDES}::test_lists_each_function_of_the_header_as_a_symbol",
    ),
    Fault(
        f"{PACKAGES}/python/iim-explain.1",
        "iim-explain \\- explain",
        "iim-explains \\- explain",
        f"{MANUALS}::test_finds_the_manuals_by_apropos",
    ),
    Fault(
        f"{PACKAGES}/python/iim-explain.1",
        "iim-explain \\- explain a file of newswire envelopes (IPTC-NAA IIM)",
        "iim-explain \\- explain a file of newswire envelopes (IIM)",
        f"{MANUALS}::test_finds_the_manuals_by_apropos",
    ),
]
