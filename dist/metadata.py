"""What packages say of themselves, for the archives and stores that list them."""
import pathlib
import tomllib

here = pathlib.Path(__file__).resolve().parent
PUBLISHER = tomllib.loads((here / "publisher.toml").read_text())
MAINTAINER = PUBLISHER["maintainer"]


def lines(pairs):
    """A line for each pair of a name and a value that is given."""
    return "".join(f"{name}: {value}\n" for name, value in pairs if value)


def control_lines():
    """The lines of Debian's control file on where the project is."""
    return lines((("Homepage", PUBLISHER["homepage"]), ("Vcs-Git", PUBLISHER["repository"])))


def extras(project):
    """The lines on optional dependencies in the metadata of a wheel."""
    for name, packages in project.get("optional-dependencies", {}).items():
        yield "Provides-Extra", name
        yield from (("Requires-Dist", f'{needed}; extra == "{name}"') for needed in packages)


def of_wheel(project, number, readme):
    """The metadata of a wheel, from what pyproject.toml has."""
    urls = [(f"Project-URL: {name}", PUBLISHER[key]) for name, key in (("Homepage", "homepage"), ("Repository", "repository"))]
    text = lines((
        ("Metadata-Version", "2.1"), ("Name", project["name"]), ("Version", number), ("Summary", project["description"]),
        ("Author", ", ".join(author["name"] for author in project["authors"])), ("Maintainer-email", MAINTAINER),
        ("License", project["license"]["text"]), ("Keywords", ",".join(project["keywords"])),
        *(("Classifier", it) for it in project["classifiers"]), ("Requires-Python", project["requires-python"]), *extras(project)))
    text += "".join(f"{name}, {value}\n" for name, value in urls if value)
    return f"{text}Description-Content-Type: text/markdown\n\n{readme}".encode()


def manifest(text):
    """A Cargo.toml for a release: it may be a member of the user's workspace, and says where the project is."""
    given = "".join(f'{name} = "{PUBLISHER[name]}"\n' for name in ("homepage", "repository") if PUBLISHER[name])
    return text.replace("\n[workspace]\n", "").replace('\npublish = false\n', f"\n{given}publish = false\n").encode()
