"""Crews on small random models: the script of the gate is the drawn one, and more models are tried with the program itself."""
from conftest import TOP, load_tool

crews = load_tool(TOP / "bench" / "crews.py")
WORKED = TOP / "crates" / "test_scripts"


def test_script_of_the_gate():
    scenes = list(crews.scenes(48))
    assert crews.script(scenes) == (WORKED / "data" / "crews.txt").read_text(encoding="ascii")
    assert crews.expected(scenes) in (WORKED / "stdout").read_text(encoding="latin-1")


def test_more_models(tmp_path, capsys):
    trial = crews.Trial(tmp_path)
    for seed in range(48, 78):
        trial.try_model(seed)
    assert capsys.readouterr().out == ""
    assert trial.counts["wrong"] == 0 and trial.counts["with splits"] > 20
