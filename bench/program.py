"""Makes a small program over the crates of the repository, and runs it by `rt try`.

The program has the models of the example folder as TEXTS, and its rules file as RULES, in a module `texts`.
"""
import pathlib, shutil, subprocess, tempfile

top = pathlib.Path(__file__).resolve().parent.parent
listed = dict(line.split(":", 1) for line in (top / "crates.txt").read_text().splitlines() if ":" in line and line[0] != "#")


def crates_below(uses):
    """The crates of the repository that are used, those that a crate stands on before it."""
    below = []

    def take(crate):
        for other in listed[crate].split():
            if other in listed:
                take(other)
        if crate not in below:
            below.append(crate)

    for crate in uses.split():
        if crate in listed:
            take(crate)
    return below


def make(folder, name, main, uses):
    """Writes a repository with the program into a folder. Gives the program's own folder."""
    folder = pathlib.Path(folder)
    below = crates_below(uses)
    for crate in below:
        shutil.copytree(top / "crates" / crate, folder / "crates" / crate, ignore=shutil.ignore_patterns("out"))
    source = folder / "crates" / name / "src"
    source.mkdir(parents=True)
    shutil.copy(main, source / "main.rt")
    data = top / "crates" / "gcu_cli" / "data"
    paths = (data / "models.list").read_text().split()
    texts = ", ".join('r#"' + (data / path).read_text() + '"#' for path in paths)
    rules = (data / "rules.json").read_text()
    (source / "texts.rt").write_text(
        f'//! The models and the rules file.\npub const TEXTS: [&str; {len(paths)}] = [{texts}];\n\n'
        f'pub const RULES: &str = r#"{rules}"#;\n')
    lines = [f"{crate}:{listed[crate]}" for crate in below]
    (folder / "crates.txt").write_text("\n".join([*lines, f"{name}: {uses}"]) + "\n")
    subprocess.run(["git", "init", "-q"], cwd=folder, check=True)
    return folder / "crates" / name


def bench(name, main, uses, words):
    """Writes the program into the folder that is named, or runs it and prints its rows."""
    if words:
        print(make(words[0], name, main, uses))
        return
    with tempfile.TemporaryDirectory() as folder:
        made = make(folder, name, main, uses)
        ran = subprocess.run(["rt", "try", "--seconds", "600"], cwd=made, capture_output=True, text=True)
    rows = [line for line in ran.stdout.splitlines() if line.startswith("ports ")]
    print("\n".join(rows) if rows else ran.stdout[-3000:] + ran.stderr[-3000:])
