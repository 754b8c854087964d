"""Write an envelope to standard output."""
import datetime
import sys

import iim

envelope = iim.build(
    service="TST",
    number=3,
    date_sent=datetime.date(2024, 3, 1),
    headline="Rates held",
    keywords=["rates", "bank"],
    story="Rates stay.\nNo change.",
)
sys.stdout.buffer.write(envelope)
