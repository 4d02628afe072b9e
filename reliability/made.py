"""Scripts that are made from a number: any commands of any sessions over few names, so that many lines are refused."""
import random

SHAPES = [f's{i}' for i in range(9)]
GUIDES = ['gx1', 'gx2', 'gy1', 'gy2']
USERS = [f'c{i}' for i in range(8)]
LINKS = [f'l{i}' for i in range(8)]


def command(draw):
    """The text of a command."""
    place = lambda: draw.choice([draw.randint(-400, 400), draw.randint(-400, 400), draw.randint(-10**6, 10**6 + 3)])
    size = lambda: draw.choice([draw.randint(1, 120), draw.randint(1, 120), draw.randint(0, 10_001)])
    gap = lambda: draw.randint(-60, 160)
    some = lambda names: ' '.join(draw.sample(names, draw.randint(1, 4)))
    shape, axis, user = draw.choice(SHAPES), draw.choice('xy'), draw.choice(USERS)
    return draw.choice([
        lambda: f'{draw.choice(["box", "oval", "diamond"])} {shape} {place()} {place()} {size()} {size()}',
        lambda: f'{draw.choice(["box", "oval", "diamond"])} {shape} {gap()} {gap()} {draw.randint(1, 90)} 40',
        lambda: f'size {shape} {size()} {size()}',
        lambda: f'move {shape} {place()} {place()}',
        lambda: f'{draw.choice(["hold", "free"])} {shape}',
        lambda: f'remove {draw.choice(SHAPES + GUIDES)}',
        lambda: f'link {draw.choice(LINKS)} {shape} {draw.choice(SHAPES)}',
        lambda: f'unlink {draw.choice(LINKS)}',
        lambda: f'guide {(name := draw.choice(GUIDES))} {name[1]} {place()}',
        lambda: f'shift {draw.choice(GUIDES)} {place()}',
        lambda: f'align {user} {draw.choice(GUIDES)} {draw.choice(["low", "mid", "high"])} {some(SHAPES)}',
        lambda: f'{draw.choice(["spread", "rank"])} {user} {axis} {gap()} {some(SHAPES)}',
        lambda: f'apart {user} {axis} {shape} {draw.choice(SHAPES)} {gap()} {draw.choice(["least", "exact"])}',
        lambda: f'group {user} {draw.randint(0, 30)} {some(SHAPES)}',
        lambda: f'page {draw.choice(USERS)} {gap()} {gap()} {draw.randint(300, 900)} {draw.randint(300, 900)} '
                f'{draw.randint(0, 20)} {draw.choice(["soft", "rigid"])}',
        lambda: f'drop {user}',
        lambda: 'undo',
        lambda: 'layout',
        lambda: 'layout',
        lambda: f'where {draw.choice(SHAPES + GUIDES + USERS + LINKS)}',
    ])()


def script(number, lines, sessions):
    """The script of this number with so many lines, each of one of the sessions 1 to `sessions`."""
    draw = random.Random(number)
    texts = [f'box {name} {50 * i} {40 * i} 60 30' for i, name in enumerate(SHAPES)]
    texts += [command(draw) for _ in range(lines - len(texts))]
    return 'dunnart 1\n' + ''.join(f'{draw.randint(1, sessions)} {text}\n' for text in texts) + 'end\n'
