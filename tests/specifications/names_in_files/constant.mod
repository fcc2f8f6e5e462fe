module constant.
