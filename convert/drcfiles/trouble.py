"""What is said in one line, and the statuses with which the programs end: those of `drc`."""

DONE, BAD_WORDS, REFUSED, READING, WRITING, MEMORY = 0, 1, 2, 3, 4, 5
MISSING = 70  # a program or a library that is needed isn't there


class Trouble(Exception):
    """Why nothing was made: one line, and the status with which the program ends."""

    def __init__(self, line, status=REFUSED):
        super().__init__(line)
        self.line, self.status = line, status


class Refused(Trouble):
    """What `drc` refused: the kind's word, its number, and one line with the kind's sentence."""

    def __init__(self, word, number, line):
        super().__init__(line, REFUSED)
        self.word, self.number = word, number
