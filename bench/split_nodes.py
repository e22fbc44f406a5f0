#!/usr/bin/env python3
"""Measures a state of many posts, each a split of the next node: elapsed seconds and peak memory of a process that reserves room for the posts and steps them one
after another, the best of five runs, beside one without posts.

    bench/split_nodes.py [--posts N] [--program PATH]

N is 100,000 where it isn't given, which makes 200,001 nodes. The program is `split_nodes` of `bench/programs/`."""
import building
import measured

RUNS = 5


def main():
    parser = building.words_of(__doc__)
    parser.add_argument("--posts", type=int, default=100_000)
    asked = parser.parse_args()
    with building.built(asked, "split_nodes") as program:
        for posts in (0, asked.posts):
            run = min((measured.run([program, posts]) for _ in range(RUNS)), key=lambda it: it.elapsed)
            print("%6d posts, %s nodes: %s" % (posts, run.out.strip(), run))


if __name__ == "__main__":
    main()
