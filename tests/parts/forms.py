"""The forms of lines: plain, JSON, none at all; with files that are lost; and lists of features one after another."""
import json
import os
import shutil

from common import compare
from refused import BAD, THROW, VECTORS, room


def run(program):
    with room(program) as it:
        for name in ("a\n", "a\\u{a}", 'q"\\.wasm'):
            shutil.copy(os.path.join(it.folder, "good.wasm"), os.path.join(it.folder, name))
        tell_lines(it)
        tell_json(it)
        return it.differ


def tell_lines(it):
    it.want("vectors", ["vector.wasm"], [f"vector.wasm: invalid at 0x17: {VECTORS}", "--", "1"])
    it.want("vectors in pieces", ["--pieces=3", "vector.wasm"], [f"vector.wasm: invalid at 0x17: {VECTORS}", "--", "1"])
    it.want("vectors that are judged", ["--vectors", "vector.wasm"], ["vector.wasm: valid", "--", "0"])
    it.want("a feature that is off", ["--features", "no-exceptions", "throw.wasm"],
         [f"throw.wasm: invalid at 0x17: {THROW}", "--", "1"])
    it.want("the text format", ["text.wasm"],
         ["text.wasm: invalid at 0x0: magic header not detected: bad magic number", "--", "1"])
    it.want("names that look alike", ["a\n", "a\\u{a}"], ["a\\u{a}: valid", "a\\\\u{a}: valid", "--", "0"])
    it.want("quiet", ["--quiet", "good.wasm"], ["--", "0"])
    it.want("quiet, invalid", ["--quiet", "good.wasm", "bad.wasm", "good.wasm"], ["--", "1"])
    it.want("quiet, a file gone behind", ["--quiet", "bad.wasm", "gone.wasm"], ["--", "wasm-check: gone.wasm: cannot open", "2"])
    it.want("quiet and going on", ["--quiet", "--keep-going", "bad.wasm", "gone.wasm"], ["--", "1"])
    it.want("going on", ["--keep-going", "good.wasm", "gone.wasm", "bad.wasm", ".", "good.wasm"], [
        "good.wasm: valid", f"bad.wasm: invalid at 0x18: {BAD}", "good.wasm: valid", "--",
        "wasm-check: gone.wasm: cannot open", "wasm-check: .: cannot read", "2"])
    it.want("going on, nothing lost", ["--keep-going", "good.wasm", "bad.wasm"], ["good.wasm: valid", f"bad.wasm: invalid at 0x18: {BAD}", "--", "1"])
    it.want("lists one after another", ["--features", "mvp", "throw.wasm", "--features", "exceptions"], ["throw.wasm: invalid at 0x17: unknown tag 0: tag index out of bounds", "--", "1"])
    it.want("all features", ["--features=all", "good.wasm"], ["good.wasm: valid", "--", "0"])


def tell_json(it):
    """Lines as JSON; a name is read back as it was."""
    it.want("JSON", ["--json", "good.wasm", "bad.wasm"], [
        '{"file":"good.wasm","valid":true}',
        f'{{"file":"bad.wasm","valid":false,"offset":24,"kind":"types","message":"{BAD}"}}', "--", "1"])
    it.want("JSON, a name", ["--json", 'q"\\.wasm', "a\n"], ['{"file":"q\\"\\\\.wasm","valid":true}', '{"file":"a\\u000a","valid":true}', "--", "0"])
    names = ['q"\\.wasm', "a\n", "a\\u{a}"]
    read = [json.loads(line)["file"] for line in it.answered(["--json", *names])[:3]]
    it.differ += compare("JSON as it is read", read, names)
    # what helps a person: a feature, a switch, a limit
    it.want("JSON, a feature", ["--json", "--features=no-exceptions", "throw.wasm"], [
        f'{{"file":"throw.wasm","valid":false,"offset":23,"kind":"missing-feature","message":"{THROW}",'
        '"feature":"exceptions","hint":"--features exceptions allows it"}', "--", "1"])
    it.want("JSON, vectors", ["--json", "vector.wasm"], [
        f'{{"file":"vector.wasm","valid":false,"offset":23,"kind":"vectors","message":"{VECTORS}","hint":"--vectors judges operators on vectors"}}', "--", "1"])
    it.want("JSON, a limit", ["--json", "--limits=locals=1", "locals.wasm"], [
        '{"file":"locals.wasm","valid":false,"offset":23,"kind":"limit","message":"too many locals: locals exceed maximum",'
        '"limit":"locals","hint":"--limits locals=N sets this limit"}', "--", "1"])
    it.want("JSON, several memories", ["--json", "--features=no-multi-memory", "memories.wasm"], [
        '{"file":"memories.wasm","valid":false,"offset":10,"kind":"missing-feature","message":"multiple memories",'
        '"feature":"multi-memory","hint":"--features multi-memory allows it"}', "--", "1"])
    it.want("JSON, one memory", ["--json", "--limits=memories=1", "memories.wasm"], [
        '{"file":"memories.wasm","valid":false,"offset":10,"kind":"limit","message":"multiple memories",'
        '"limit":"memories","hint":"--limits memories=N sets this limit"}', "--", "1"])
    it.want("JSON, a component", ["--json", "--features=no-component-model", "component.wasm"], [
        '{"file":"component.wasm","valid":false,"offset":0,"kind":"other",'
        '"message":"encoded as a component but the WebAssembly component model feature is not enabled"}', "--", "1"])
    it.want("JSON, a padded zero", ["--json", "--features=no-multi-memory", "padded.wasm"], [
        '{"file":"padded.wasm","valid":false,"offset":29,"kind":"missing-feature","message":"zero byte expected"}', "--", "1"])
    it.want("JSON, a type that names its own group", ["--json", "--features=no-gc", "group.wasm"], [
        '{"file":"group.wasm","valid":false,"offset":11,"kind":"missing-feature",'
        '"message":"unknown type 0: type index out of bounds because the GC proposal is disabled","feature":"gc","hint":"--features gc allows it"}', "--", "1"])
    it.want("JSON, a file gone", ["--json", "good.wasm", "gone\n"], [
        "--", "wasm-check: gone\\u{a}: cannot open", '{"fault":"cannot open","file":"gone\\u000a","hint":"no such file"}', "2"])
    it.want("JSON, a limit past its ceiling", ["--json", "--limits=locals=1000001", "good.wasm"], [
        "--", "wasm-check: bad limit `locals=1000001`", '{"fault":"bad limit","word":"locals=1000001","hint":"at most 1000000"}', "2"])
