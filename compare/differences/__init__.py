"""Where the Rust original and Python part company: what python.py and python_search.py use.

    programs            Python and `namecheck`, run
    sections            the sections of docs/DIFFERENCES.md, held against both
    spelling            the spelling of names, held against `namecheck`
    random_scripts      random Python scripts
    marked_run          a run by Python that notes which reads were made
    parting             under which section a read comes
"""
