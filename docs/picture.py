# Draws the mesh of NAME.node and NAME.ele, cut open: python3 picture.py NAME PICTURE.png
import sys
import numpy as np
import vtk
from PIL import Image
from vtk.util.numpy_support import numpy_to_vtk, vtk_to_numpy

def boundary(tets):
    faces = np.sort(tets[:, [[1, 2, 3], [0, 2, 3], [0, 1, 3], [0, 1, 2]]].reshape(-1, 3), axis=1)
    faces, count = np.unique(faces, axis=0, return_counts=True)
    return {tuple(face) for face in faces[count == 1].tolist()}

def draw(view, nodes, faces, colour):
    surface, mapper, actor = vtk.vtkPolyData(), vtk.vtkPolyDataMapper(), vtk.vtkActor()
    points, cells = vtk.vtkPoints(), vtk.vtkCellArray()
    points.SetData(numpy_to_vtk(nodes))
    for face in sorted(faces):
        cells.InsertNextCell(3, face)
    surface.SetPoints(points), surface.SetPolys(cells)
    mapper.SetInputData(surface), actor.SetMapper(mapper), view.AddActor(actor)
    look = actor.GetProperty()
    look.SetColor(colour), look.SetAmbient(0.3), look.SetDiffuse(0.8), look.SetInterpolationToFlat()
    look.SetEdgeVisibility(True), look.SetEdgeColor(0.15, 0.18, 0.25)

nodes = np.loadtxt(sys.argv[1] + ".node", skiprows=1, usecols=(1, 2, 3))
tets = np.loadtxt(sys.argv[1] + ".ele", skiprows=1, usecols=(1, 2, 3, 4), dtype=int)
middle = (nodes.min(axis=0) + nodes.max(axis=0)) / 2
skin, cut = boundary(tets), boundary(tets[(nodes[tets].mean(axis=1) - middle) @ [0.5, -0.8, 0.4] < 0.9])
view, window, grab = vtk.vtkRenderer(), vtk.vtkRenderWindow(), vtk.vtkWindowToImageFilter()
draw(view, nodes, cut & skin, (0.96, 0.68, 0.27))
draw(view, nodes, cut - skin, (0.35, 0.63, 0.82))
view.SetBackground(1, 1, 1)
eye = view.GetActiveCamera()
eye.SetFocalPoint(middle), eye.SetPosition(middle + [0.55, -1.35, 0.85]), eye.SetViewUp(0, 0, 1)
window.SetOffScreenRendering(True), window.SetMultiSamples(8), window.SetSize(900, 860), window.AddRenderer(view)
view.ResetCamera(), eye.Zoom(1.4)
grab.SetInput(window), grab.Update()
pixels = vtk_to_numpy(grab.GetOutput().GetPointData().GetScalars()).reshape(860, 900, 3)
Image.fromarray(pixels[::-1]).quantize(64).save(sys.argv[2], optimize=True)
