#!/usr/bin/env python3
"""Writes a large valid report: FOLDER/1.tsv, FOLDER/2.tsv and so on. The same arguments give the same bytes.

  report.py FOLDER [--bytes N] [--files N] [--isrcs N] [--works N] [--parties N] [--usages N] [--summaries N]
            [--recordings FILE] [--each-first]

--bytes is the approximate size of all files together, --isrcs the number of recordings, --works the works of a block,
--parties the parties of a work, --usages the usages of a block, --summaries the summaries of a file. With --recordings
the ISRCs are the lines of FILE, and --isrcs is ignored. With --each-first the first blocks of a file name each
recording once, in turn.
"""
import argparse
import os
import random


def isrc_of(song):
    return f'GBX{song // 2_000_000:02d}{10 + song // 100_000 % 20}{song % 100_000:05d}'


def blocks(asked, rng, file, room):
    """The blocks of a file, each with its usages as (summary, usages, hundredths)."""
    share = f'{99.5 / max(1, asked.works * asked.parties):.4f}'
    size = 0
    number = 0
    while size < room:
        number += 1
        song = number - 1 if asked.each_first and number <= asked.isrcs else rng.randrange(asked.isrcs)
        isrc = asked.recordings[song] if asked.recordings else isrc_of(song)
        lines = [f'AS01\t{number}\t{isrc}\tSong {number % 9973} of {file}\tThe {number % 401} Lanterns']
        for work in range(asked.works):
            parties = '|'.join(f'Party {(7 * song + 3 * work + place) % 2000}' for place in range(asked.parties))
            shares = '|'.join([share] * asked.parties)
            lines.append(f'MW01\t{number}\tT-{number:09d}-{work}\tSong {number % 9973}\t{parties}\t{shares}')
        used = [(rng.randrange(asked.summaries), rng.randrange(1, 5000), rng.randrange(1, 90000)) for _ in range(asked.usages)]
        for summary, usages, hundredths in used:
            lines.append(f'SU01\t{number}\tS{summary}\t{usages}\t{hundredths // 100}.{hundredths % 100:02d}')
        text = '\n'.join(lines) + '\n'
        size += len(text)
        yield text, used


def write_file(asked, file, folder):
    rng = random.Random(f'{file} of {asked.files}')
    room = asked.bytes // asked.files
    totals = [[0, 0] for _ in range(asked.summaries)]
    count = lines = 0
    body = os.path.join(folder, f'{file}.body')
    with open(body, 'w') as out:
        for text, used in blocks(asked, rng, file, room):
            out.write(text)
            count += 1
            lines += text.count('\n')
            for summary, usages, hundredths in used:
                totals[summary][0] += usages
                totals[summary][1] += hundredths
    with open(os.path.join(folder, f'{file}.tsv'), 'w') as out, open(body) as read:
        out.write(f'HEAD\tBENCH\t{file}\t{asked.files}\t2024-01-01\t2024-01-31\tNorthwind Music\tHarbour Rights\n')
        for summary, (usages, hundredths) in enumerate(totals):
            territory = ('GB', 'DE', 'FR', 'US', 'JP', 'SE', 'NO', 'BR')[summary % 8]
            out.write(f'SY01\tS{summary}\t{territory}\tUse{summary // 8}\tGBP\t{usages}\t{hundredths // 100}.{hundredths % 100:02d}\n')
        while piece := read.read(1 << 20):
            out.write(piece)
        out.write(f'FOOT\t{lines + asked.summaries + 2}\t{asked.summaries}\t{count}\n')
    os.unlink(body)


def main():
    parser = argparse.ArgumentParser(description=__doc__, formatter_class=argparse.RawDescriptionHelpFormatter)
    parser.add_argument('folder')
    for name, standard in (('bytes', 10_000_000), ('files', 1), ('isrcs', 1000), ('works', 1), ('parties', 2),
                           ('usages', 2), ('summaries', 8)):
        parser.add_argument(f'--{name}', type=int, default=standard)
    parser.add_argument('--recordings', type=argparse.FileType('r'))
    parser.add_argument('--each-first', action='store_true')
    asked = parser.parse_args()
    if asked.recordings:
        asked.recordings = asked.recordings.read().split()
        asked.isrcs = len(asked.recordings)
    os.makedirs(asked.folder, exist_ok=True)
    for file in range(1, asked.files + 1):
        write_file(asked, file, asked.folder)


main()
