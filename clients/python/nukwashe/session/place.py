"""Where the socket of a session stands."""
import os
import pathlib
import tempfile


def socket_path(given: str | None = None) -> pathlib.Path:
    """The path that was given; else that of the variable NUKWASHE_SESSION; else one in the folder
    of the user's own."""
    named = given or os.environ.get("NUKWASHE_SESSION")
    return pathlib.Path(named) if named else _own_folder() / "nukwashe.session"


def _own_folder() -> pathlib.Path:
    """The user's folder for sockets; where the system has none, one that only the user can open.
    Raises PermissionError where somebody else made it."""
    given = os.environ.get("XDG_RUNTIME_DIR")
    if given:
        return pathlib.Path(given)
    folder = pathlib.Path(tempfile.gettempdir()) / f"nukwashe-{os.getuid()}"
    folder.mkdir(mode=0o700, exist_ok=True)
    found = folder.lstat()
    if found.st_uid != os.getuid() or found.st_mode & 0o077:
        raise PermissionError(f"{folder} is not this user's alone")
    return folder
