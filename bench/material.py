"""The documents of a run, and where they lie for programs that read files."""

import dataclasses
import os


@dataclasses.dataclass
class Material:
    """The documents that most parts ask, a folder for what is written, and by how much less than in a full run there is of all texts."""

    documents: list[bytes]
    folder: str
    scale: int = 1

    @property
    def bytes(self):
        return size_of(self.documents)

    def written(self, name, documents):
        """The paths of documents, each in a file of a folder of that name, which has nothing else."""
        folder = self.folder_of(name)
        paths = [os.path.join(folder, f"d{number}.xml") for number in range(len(documents))]
        if not os.listdir(folder):
            for path, document in zip(paths, documents):
                with open(path, "wb") as file:
                    file.write(document)
        return paths

    def folder_of(self, name):
        """A folder of that name, which is there."""
        path = os.path.join(self.folder, name)
        os.makedirs(path, exist_ok=True)
        return path


def size_of(documents):
    """The bytes of documents together."""
    return sum(map(len, documents))
