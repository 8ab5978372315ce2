"""What a client may send, and how long anybody may take."""
from typing import Final

LONGEST_TARGET: Final = 16_384          # bytes of an address
LONGEST_HEAD: Final = 32_768            # bytes of a request's head
MOST_BLANK: Final = 64                  # bytes of empty lines before it
LONGEST_LINE: Final = 4_194_304         # bytes of an edit line, as the program's
LONGEST_LINES: Final = 67_108_864       # bytes of a body of edit lines
LONGEST_JSON: Final = 65_536            # bytes of a body of JSON
LARGE_BODY: Final = 65_536              # bytes of a body before which other requests go
MOST_WORDS: Final = 32                  # of an address
MOST_ENTRIES: Final = 1_048_576         # of a table
LARGE_TABLE: Final = 65_536             # entries from which a table counts as large
LARGE_TABLES: Final = 4                 # large tables that a worker makes at once
MOST_PLACES: Final = 100                # places of a route
MOST_WAITING: Final = 64                # edits that wait in one worker
KEPT_JOBS: Final = 1_000
TOLD_REFUSALS: Final = 100              # refused lines that an answer tells

MOST_CONNECTIONS: Final = 4_096         # of one worker
LARGE: Final = 65_536                   # bytes on their way to a client that count as held
MOST_DROPPED: Final = 134_217_728       # bytes that are let go behind a refusal before the connection is cut
MOST_HELD: Final = 67_108_864           # bytes that the clients of one worker hold together

IDLE_SECONDS: Final = 60.0              # until a connection's first request, and between two
HEAD_SECONDS: Final = 10.0              # for a request's head, from its first byte on
BODY_SECONDS: Final = 30.0              # for a body, and besides as long as its bytes take at BODY_RATE
BODY_RATE: Final = 262_144              # bytes a second
TAKE_SECONDS: Final = 60.0              # in which a client that takes a reply must take some of it
LINGER_SECONDS: Final = 5.0             # for what a client goes on sending behind a refusal, and besides as BODY_RATE
LAST_LINGER_SECONDS: Final = 1.0        # the same behind the last answer, and where the service ends before it has asked

QUICK_SECONDS: Final = 5.0              # for a child's next reply to a route
SLOW_SECONDS: Final = 30.0              # and to any other line
START_SECONDS: Final = 60.0             # for a child to open its file
PROBE_SECONDS: Final = 4.0              # for a child to answer /health
WATCH_SECONDS: Final = 0.2              # between two looks at a file's place
CANCEL_SECONDS: Final = 10.0            # for which whoever ends a job waits; it is gone in less than one, mostly
GRACE_SECONDS: Final = 0.5              # for requests that are on their way when the service ends
DRAIN_SECONDS: Final = 8.0              # for an edit in work when the service ends
LAST_SECONDS: Final = 8.7               # until a worker that ends is gone
LOG_SECONDS: Final = 8.0                # for the stream's server to take an entry
