"""What a list of tests came to: each is a name and whether it is good."""


def told(results):
    """Prints those that failed and the last line 'N passed, M failed'; answers the exit status."""
    for name, good in results:
        if not good:
            print('FAILED:', name)
    failed = sum(not good for _, good in results)
    print(f'{len(results) - failed} passed, {failed} failed')
    return 1 if failed else 0
