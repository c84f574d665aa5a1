"""What the tools of Coshalit share, in Python 3.9 without other packages, written from docs/ alone.

    instructions, machine, images, assembly    the machine that runs a case (docs/MACHINE.md, docs/ASSEMBLY.md)
    commitments, answers, referee              roots of states, answers of provers, the ruling on a proof of one step (docs/COMMITMENTS.md)
    matches, reports, texts, game, reading     a match: what it is, read from a report, and played from a full text (docs/GAME.md, docs/TEXTS.md)
    cases                                      what a case has to be (docs/PROGRAM.md)
    pictures, colours                          a match as a picture
    sources                                    where an instruction stands in its source
    process                                    how a tool reads, writes, and ends

Nothing of it is proved. Each module says which document it follows.
"""
