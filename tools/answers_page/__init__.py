"""A page of HTML from the answers that gobase prints for a script.

    script         reads the script: which statement stands on which line, and what it asks
    answers        what each statement printed, one class for each kind
    record         reads a record, that is what gobase printed, into answers
    sgf            reads the games that gobase printed: their information and move numbers
    program        runs gobase: over the script, and for the games that the page shows
    words          numbers, labels, places and faults in plain words
    continuations  how the hits of a search went on, with their letters
    boards         patterns, bars and charts as SVG
    sections       the HTML of each answer
    data           games, hits, positions and players as JSON for the page's own script
    page           puts sections, data, style and script together
    command        the command line

The page's own script is game.js, board.js, list.js, hits.js, positions.js, openings.js, viewer.js and start.js,
one behind the other, its style page.css, and the board beside the answers viewer.html.

Texts come as bytes that need be no UTF-8. They are kept as `str` with `surrogateescape`, so that a line
of the script can be handed back to the program as it was, and pass through `words.shown` where they
come on the page.

A statement that isn't known is plain text on the page. To show a new one: give it a class in `answers`,
a line in the table of `record`, and a function in the table of `sections`.
"""
