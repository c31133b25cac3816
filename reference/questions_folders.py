"""Random questions about folders, under the stand-in."""

import random_folders
from answer_words import hexed
from random_paths import chance

POOL = [random_folders.StandInSigner(bytes([97 + place])) for place in range(6)]
# how deep a walk goes, and how many certificates it verifies at most
DEPTHS, STEPS = [0, 1, 2, 3, 4, 5, 6, 8, 8, 8], [0, 3, 30, 300, 300, 300, 300, 1000]


def moment(time):
    return '%04d%02d%02d%02d%02d%02d' % time


def folder_question(rng):
    files, locator, _ = random_folders.random_folder(rng, POOL)
    anchors = [octets for name, octets in files.items() if '-anchor' in name]
    anchor = rng.choice(anchors if chance(rng, 0.95) else list(files.values()))
    if chance(rng, 0.03):
        locator = random_folders.locator_of(rng.choice(POOL).key)
    mode = rng.choice(['strict', 'lenient'])
    words = [mode, moment(random_folders.NOW), str(rng.choice(DEPTHS)), str(rng.choice(STEPS)),
             hexed(locator), f'ta:{hexed(anchor)}', *map(hexed, files.values())]
    return mode, ' '.join(['folder', *words])
