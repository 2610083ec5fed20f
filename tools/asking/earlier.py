"""Files from before version 3.0.0, when a record had 16 bytes and an answer no P and Q. They are no longer read (02, R-6). That is said of them, and not that
they are torn or full of faults.

The rule: a file is from then if more of its records end in a record of then than are sound. Sound is a question that ends in its zeros, and an answer whose
P and Q give its cost, or are 0. What counts as a record of then is a question with a limit and four or eight ways, or an answer with a number. Zeros stand in
its place now: a sound record does not end so, and one with a single wrong byte does not or is sound still. Where a file of now is torn is of no account, for
whole records alone are looked at: the first half of one of now is one of then in every byte, and tells nothing.

A log is from then if its reader refuses it at the first byte, and its second 16 bytes, where a question now ends in zeros, are an answer of then.
"""
import struct

from asking.names import visible
from asking.programs import FOUND, MARK, NONE, QUESTION_ZEROS, STOPPED, Trouble, answer_of, question_of

SINCE = "3.0.0"
SIZE = 16
QUESTION_LAYOUT = struct.Struct("<3IB3s")
ANSWER_LAYOUT = struct.Struct("<BB2s3I")
STRAIGHT_UNIT, DIAGONAL_UNIT = 70, 99


def is_sound_question(record):
    return question_of(record).zeros == QUESTION_ZEROS


def is_sound_answer(record):
    answer = answer_of(record)
    if answer.kind == FOUND:
        return answer.number == STRAIGHT_UNIT * answer.p + DIAGONAL_UNIT * answer.q
    return answer.p == answer.q == 0


def was_question(record):
    """Whether 16 bytes are a question of then that could be answered."""
    _, _, limit, ways, zeros = QUESTION_LAYOUT.unpack(record)
    return limit > 0 and ways in (4, 8) and not any(zeros)


def was_answer(record):
    """Whether 16 bytes are an answer of then that has a number."""
    kind, refusal, zeros, settled, number, length = ANSWER_LAYOUT.unpack(record)
    fits = {FOUND: 0 < number < MARK and length > 0, NONE: number == MARK and length == 0, STOPPED: 0 < number < MARK and length == 0}
    return fits.get(kind, False) and refusal == 0 and not any(zeros) and settled > 0


def was_route(rest, length):
    """Whether the rest of a log begins with directions and fillers of then, as far as it goes."""
    return max(rest[:length], default=0) <= 7 and set(rest[length : length + -length % SIZE]) <= {255}


def more_of_then(records, was_then, is_sound):
    return sum(was_then(record[SIZE:]) for record in records) > sum(map(is_sound, records))


def log_of_then(front):
    """Whether a log begins with an entry of then. Entries whose answer has no number, as a refusal, tell too little and are passed over."""
    for at in range(0, len(front) - 2 * SIZE + 1, 2 * SIZE):
        answer = front[at + SIZE : at + 2 * SIZE]
        if was_answer(answer):
            return was_route(front[at + 2 * SIZE :], ANSWER_LAYOUT.unpack(answer)[-1])
        if not any(answer) or any(answer[8:]):
            return False
    return False


def trouble(what, path, advice):
    return Trouble(f"{what} {visible(path)} was recorded before records grew, in version {SINCE}: its records have {SIZE} bytes, which are no longer read; {advice}")


def refuse_questions(what, path, records):
    """Trouble if the first records of a file show that its questions are from then."""
    if more_of_then(records, was_question, is_sound_question):
        raise trouble(what, path, "write the questions anew, or replay them with the version they were written for")


def refuse_answers(what, path, records):
    """The same for answers."""
    if more_of_then(records, was_answer, is_sound_answer):
        raise trouble(what, path, "compare them with the version that gave them")


def refuse_log(what, path, front):
    """The same for a log that is refused at its first byte, of which this is the front."""
    if log_of_then(front):
        raise trouble(what, path, "read it with the version that wrote it, and log to another file")


def half_a_record(size, thing):
    """What is added where a file holds no more than this: by its bytes it could be torn, or whole and from then."""
    return f"; before version {SINCE} {thing} had {SIZE}" if size == SIZE else ""
