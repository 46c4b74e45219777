"""An output never replaces an input or what the tool didn't make, and leaves nothing behind that isn't whole."""

import os
import stat

import pytest
from avida_log import Fault
from files import Output

MARK = b"made by a test"


def write(output, text):
    with output.written() as file:
        file.write(text)


def test_what_the_tool_made_is_replaced(tmp_path):
    path = tmp_path / "page"
    for text in ("made by a test: one", "made by a test: two"):
        write(Output(path, mark=MARK), text)
        assert path.read_text() == text
    assert os.listdir(tmp_path) == ["page"]


def test_an_empty_file_is_replaced(tmp_path):
    path = tmp_path / "page"
    path.touch()
    write(Output(path, mark=MARK), "new")
    assert path.read_text() == "new"


@pytest.mark.parametrize("mark", [MARK, None])
def test_what_the_tool_did_not_make_is_kept(tmp_path, mark):
    path = tmp_path / "page"
    path.write_text("a user's own")
    with pytest.raises(Fault, match="--force replaces it"):
        Output(path, mark=mark)
    write(Output(path, mark=mark, force=True), "new")
    assert path.read_text() == "new"


def test_an_input_is_kept_even_with_force(tmp_path):
    log, link, second = tmp_path / "log", tmp_path / "link", tmp_path / "second"
    log.write_bytes(MARK)
    link.symlink_to(log)
    second.hardlink_to(log)
    for path in (log, link, second, f"{tmp_path}/./log"):
        with pytest.raises(Fault, match="this is an input"):
            Output(path, ["-", None, tmp_path / "none", log], MARK, force=True)


def test_nothing_is_written_into_a_folder_that_is_read(tmp_path):
    (tmp_path / "pieces").mkdir()
    with pytest.raises(Fault, match="which is read"):
        Output(tmp_path / "pieces/page", [tmp_path / "pieces"], MARK, force=True)


@pytest.mark.parametrize("name", ["none/page", ".", "", "-", "x" * 300, "nul\0"])
def test_what_can_not_be_written_is_told_before_the_work(tmp_path, monkeypatch, name):
    monkeypatch.chdir(tmp_path)
    with pytest.raises(Fault):
        Output(name, mark=MARK)
    assert os.listdir(tmp_path) == []


def test_what_comes_meanwhile_is_kept(tmp_path):
    path = tmp_path / "page"
    output = Output(path, mark=MARK)
    path.write_text("a user's own")
    with pytest.raises(Fault, match="while this was at work"):
        write(output, "new")
    assert path.read_text() == "a user's own" and os.listdir(tmp_path) == ["page"]


def test_what_is_not_whole_is_gone(tmp_path):
    path = tmp_path / "page"
    path.write_text("made by a test: old")
    with pytest.raises(ZeroDivisionError), Output(path, mark=MARK).written() as file:
        file.write("half")
        1 / 0
    assert path.read_text() == "made by a test: old" and os.listdir(tmp_path) == ["page"]


def test_permissions_stay_or_are_the_usual_ones(tmp_path):
    path = tmp_path / "page"
    write(Output(path, mark=MARK), "made by a test")
    usual = tmp_path / "usual"
    usual.touch()
    assert path.stat().st_mode == usual.stat().st_mode
    path.chmod(0o640)
    write(Output(path, mark=MARK), "made by a test")
    assert stat.S_IMODE(path.stat().st_mode) == 0o640


def test_a_link_stays_a_link(tmp_path):
    path, link = tmp_path / "page", tmp_path / "link"
    path.touch()
    link.symlink_to(path)
    write(Output(link, mark=MARK), "new")
    assert link.is_symlink() and path.read_text() == "new"


def test_a_device_is_written_as_it_is():
    write(Output("/dev/null", mark=MARK), "new")
