"""The top folder of the project, and the texts of its files."""
import os

TOP = os.path.dirname(os.path.dirname(os.path.dirname(os.path.realpath(__file__))))


def text_of(path):
    with open(f"{TOP}/{path}", encoding="utf-8") as file:
        return file.read()
