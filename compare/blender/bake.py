"""Has Blender bake small clouds, each setting in its own files.

    blender --background --factory-startup --python-exit-code 1 --python bake.py -- DIRECTORY FRAMES SETTING ..

A setting is SCENE-COMPRESSION-BITS, such as smoke-ZIP-16: a name of SCENES, what Blender calls the compression (NONE, ZIP,
BLOSC) and the bits of a number (32, 16; of a liquid also 8). FRAMES frames go to DIRECTORY/SETTING-KIND-FRAME.vdb, KIND
being data or noise. Blender draws the identity of each file anew.
"""
import glob
import os
import shutil
import sys
import tempfile

import bpy

# Each has the domain's width in cells, four a unit, and what else is switched on. `wide` reaches into a second 4-node. A
# resumable cache has every grid that a later bake goes on from.
SCENES = {
    'smoke': {'cells': 16},
    'wide': {'cells': 144, 'coloured': True},
    'kept': {'cells': 16, 'coloured': True, 'resumable': True, 'noise': True},
    'liquid': {'cells': 16, 'liquid': True, 'resumable': True},
}


def box(sides, location, kind):
    """A box with a fluid modifier, whose settings are handed back."""
    bpy.ops.mesh.primitive_cube_add(size=1, scale=sides, location=location)
    fluid = bpy.context.object.modifiers.new('Fluid', 'FLUID')
    fluid.fluid_type = kind
    return fluid.domain_settings if kind == 'DOMAIN' else fluid.flow_settings


def source(width, coloured, liquid):
    """Smoke with fire, or a liquid, flows out of a box."""
    flow = box((width, 1, 1), (0, 0, -1), 'FLOW')
    flow.flow_type = 'LIQUID' if liquid else 'BOTH'
    flow.flow_behavior = 'INFLOW'
    if coloured:
        flow.smoke_color = 0.9, 0.5, 0.2


def bake(directory, frames, compression, bits, cells, coloured=False, liquid=False, resumable=False, noise=False):
    bpy.ops.wm.read_factory_settings(use_empty=True)
    source(cells / 4 - 3, coloured, liquid)
    domain = box((cells / 4, 4, 4), (0, 0, 0), 'DOMAIN')
    # Blender empties the directory when one of the other settings changes, so that it is named first.
    domain.cache_directory = directory
    domain.domain_type = 'LIQUID' if liquid else 'GAS'
    domain.resolution_max = cells
    domain.cache_frame_end = frames
    domain.cache_data_format = 'OPENVDB'
    domain.openvdb_cache_compress_type = compression
    domain.openvdb_data_depth = bits
    domain.cache_type = 'MODULAR' if resumable else 'ALL'
    domain.cache_resumable = resumable
    domain.use_noise = noise
    if not resumable:
        bpy.ops.fluid.bake_all()
        return
    bpy.ops.fluid.bake_data()
    if noise:
        bpy.ops.fluid.bake_noise()


def main(directory, frames, *settings):
    for setting in settings:
        scene, compression, bits = setting.split('-')
        with tempfile.TemporaryDirectory() as cache:
            bake(cache, int(frames), compression, bits, **SCENES[scene])
            files = glob.glob(os.path.join(cache, '*', '*.vdb'))
            if len(files) < int(frames):
                raise RuntimeError('%s: %d files for %s frames' % (setting, len(files), frames))
            for path in files:
                kind, frame = os.path.basename(path).split('_')[1:]
                shutil.move(path, os.path.join(directory, '-'.join([setting, kind, frame])))


main(*sys.argv[sys.argv.index('--') + 1:])
