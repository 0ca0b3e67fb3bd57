"""What the words of identify.py name."""
import os

from lib.tables.given import Given, TABLES, of_file, of_folder, of_table


def given_by(options):
    """All that the words name, in their order; and whether it is one diagram alone."""
    found = [Given(f"braid {word}", f"--braid '{word}'", f"braid {word}\n", "file") for word in options.braid]
    found += [Given(f"DT {word}", f"--dt '{word}'", word, "DT") for word in options.dt]
    found += [Given(f"Gauss {word.strip()}", f"--gauss '{word.strip()}'", word, "Gauss") for word in options.gauss]
    is_one = True
    for path in options.inputs:
        if os.path.isdir(path):
            found += of_folder(path)
            is_one = False
        elif path.endswith(TABLES):
            found += of_table(path, options)
            is_one = False
        else:
            found.append(of_file(path))
    return found, is_one and len(found) == 1
