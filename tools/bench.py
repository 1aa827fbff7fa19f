#!/usr/bin/python3
"""Compares the speed of laying a skin with VTK's and scikit-image's marching cubes, on one block and one core.

Usage: tools/bench.py [ROUNDS]   (after `rt run` in crates/bench, which builds crates/bench/out/bench; the others are Debian's python3-vtk9 and
python3-skimage, and are left out where they are not installed)

The block is the one of `bench`: a ball of radius 120 in 254 x 254 x 254 densities. Each program is given the samples in memory, and only
the laying is timed, the shortest of some rounds. Marching cubes has about a third of the triangles of marching tetrahedra on the same
block, so triangles a second are compared.
"""
import os
import re
import subprocess
import sys
import time

ROUNDS = int(sys.argv[1]) if len(sys.argv) > 1 else 5
SIDE, CENTRE, LEVEL = 254, 126, 51135
BENCH = os.path.join(os.path.dirname(os.path.abspath(__file__)), "..", "crates", "bench", "out", "bench")


def report(name, triangles, seconds):
    print("%-32s %9d triangles %8.1f ms %6.2f million a second" % (name, triangles, seconds * 1e3, triangles / seconds / 1e6), flush=True)


def best(run):
    shortest, count = None, 0
    for _ in range(ROUNDS):
        start = time.perf_counter()
        count = run()
        took = time.perf_counter() - start
        shortest = took if shortest is None else min(shortest, took)
    return count, shortest


def ours():
    text = subprocess.run([BENCH, str(max(ROUNDS, 2))], capture_output=True, text=True, check=True).stdout
    counts = dict(re.findall(r"(\w+): \d+ vertices, (\d+) triangles", text))
    for name, micros in re.findall(r"(\w+): (\d+) microseconds", text):
        report("laszombi, " + name, int(counts[name]), int(micros) / 1e6)


def densities():
    import numpy
    i = numpy.arange(SIDE)
    z, y, x = numpy.meshgrid(i, i, i, indexing="ij")
    apart = (x - CENTRE) ** 2 + (y - CENTRE) ** 2 + (z - CENTRE) ** 2
    return (65535 - numpy.minimum(65535, apart)).astype(numpy.uint16)


def skimage(block):
    from skimage import measure
    values = block.astype("float32")
    report("scikit-image marching_cubes", *best(lambda: len(measure.marching_cubes(values, LEVEL - 0.5)[1])))


def vtk(block):
    import vtk
    from vtk.util import numpy_support
    vtk.vtkSMPTools.Initialize(1)
    image = vtk.vtkImageData()
    image.SetDimensions(SIDE, SIDE, SIDE)
    image.GetPointData().SetScalars(numpy_support.numpy_to_vtk(block.ravel(), deep=True, array_type=vtk.VTK_UNSIGNED_SHORT))

    def lay(kind):
        made = kind()
        made.SetInputData(image)
        made.SetValue(0, LEVEL - 0.5)
        made.ComputeNormalsOff()
        made.ComputeScalarsOff()
        made.Update()
        return made.GetOutput().GetNumberOfPolys()

    for kind in (vtk.vtkMarchingCubes, vtk.vtkFlyingEdges3D):
        report("VTK " + kind.__name__, *best(lambda: lay(kind)))


def main():
    ours()
    try:
        block = densities()
    except ImportError:
        print("numpy is not installed: no other program is measured")
        return
    for other in (skimage, vtk):
        try:
            other(block)
        except ImportError:
            print("%s is not installed" % other.__name__)


main()
