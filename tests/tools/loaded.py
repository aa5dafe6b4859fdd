"""tools/model as a module, for the tests beside, which write no bytecode and so leave nothing behind."""
import importlib.machinery
import importlib.util
import os

TOOL = os.path.join(os.path.dirname(os.path.realpath(__file__)), "..", "..", "tools", "model")


def loaded_tool():
    loader = importlib.machinery.SourceFileLoader("model", TOOL)
    module = importlib.util.module_from_spec(importlib.util.spec_from_loader("model", loader))
    loader.exec_module(module)
    return module
