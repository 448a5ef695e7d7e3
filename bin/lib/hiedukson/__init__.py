"""What the commands in bin/ share. One module a concept; Python 3's standard library alone.

    errors     what went wrong, with file, line and column
    refusals   the numbers of the refusals and their names
    words      a run's words, cut into requests and their fields; what is malformed in one
    layouts    a retag's layout words; why there is no mask
    pointers   which pointer a request gives
    text       hexadecimal text to a run, and which line a word stands on
    notation   the notation for people, to words and back
    card       a card of any form: bytes, hexadecimal text or the notation
    build      what rt builds, built again when a source has changed
    program    the proved program: found, built when it is missing or stale, and run
    progress   a long check, followed
    verdicts   what the program printed: the answers, the refusal, and the refusal in words
    command    what every command does alike: streams, errors, statuses, files replaced whole
    commands   the commands, one module each

What a card did, and why it was refused:

    memories      a memory as the program prints it: allocations and their trees
    permissions   the codes by name, and which of them a refusal is about
    replay        the memory after each request of a run
    changes       the difference of two memories
    masks         which bytes of a layout are cells
    history       the permission that refused, and what befell it
    sources       where a card's requests stand, and what they are called there
    names         what the nodes of a card are called
    rules         the rule behind each refusal, and what to do about it
    explanations  why a request was refused
    drawing       trees as text, DOT and SVG
    reports       a card replayed and put in words

An index of cards:

    filed      what a card says of itself: title, library, version, verdict
    index      cards judged, and compared with what they are filed as
    tables     an index as a table, as tab-separated values, as JSON
    pages      an index as HTML; `web` has its style and its script
    folders    folders that are replaced whole
"""
