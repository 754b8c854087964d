"""Print the id, the headline and the story of each envelope of a file."""
import sys

import iim

try:
    for envelope in iim.read(sys.argv[1]):
        print(*(part.text("ascii") for part in envelope.id))
        if envelope.headline is not None:
            print(envelope.headline.text("latin-1"))
        for line in envelope.story_lines():
            print(line.text("latin-1"))
except iim.TruncatedError as refusal:
    sys.exit(f"the file ends in envelope {refusal.nth}")
except iim.RefusedError as refusal:
    sys.exit(f"octet {refusal.octet_in_file} of the file: {refusal}")
