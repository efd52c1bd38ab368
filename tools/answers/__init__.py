"""What answers there are: for each replay program a module with the classes of each operation's answers.

CLASSES has, for each operation, the classes that must come up. DETAIL has how an answer that is no refusal is classed, from the
words of its question and its own (by default its first word). MANY has, for an operation whose answer is a run of steps, or can be
of two classes, the list of its classes, from the question and the answer.
"""


def size(n):
    return '1 byte' if n == 1 else f'{n} bytes' if n else 'nothing'


def class_of(module, question, answer, mark):
    """The class of an answer, with its mark."""
    if answer.startswith('no '):
        name = ' '.join(answer.split(' ', 2)[:2])
    else:
        words = question.split(' ')
        detail = module.DETAIL.get(words[0])
        name = detail(words, answer.split(' ')) if detail else answer.split(' ')[0]
    return f'{name} # {mark}' if mark else name


def classes_of(module, question, answer, mark):
    """The classes of an answer: one, or one for each step of a run."""
    many = module.MANY.get(question.partition(' ')[0])
    return many(question, answer, mark) if many else [class_of(module, question, answer, mark)]
