/* cgltf's records, made of gltf.h's: a part of cgltf_over_gltf.c. */
#ifndef CGLTF_RECORDS_H
#define CGLTF_RECORDS_H

/* ---- Lists and numbers. */

/* What nearly all records of cgltf have. */
#define ABOUT(kind) \
    out->name = name_of(m, kind, index); \
    out->extras = extras_of(m, kind, index, 0); \
    out->extensions = extensions_of(m, kind, index, 0, &out->extensions_count);

/* The element of a list at an index of gltf.h, or NULL. */
#define AT(list, index) ((index) == GLTF_NONE ? NULL : (list) + (index))

static cgltf_node **nodes_of(model *m, unsigned int what, size_t index, cgltf_size *count)
{
    size_t i, *indices;
    cgltf_node **out;
    check(m, gltf_list(m->file, what, index, NULL, 0, count));
    if (*count == 0)
        return NULL;
    indices = NEW(m, size_t, *count);
    out = NEW(m, cgltf_node *, *count);
    check(m, gltf_list(m->file, what, index, indices, *count, count));
    for (i = 0; i < *count; i++)
        out[i] = m->data.nodes + indices[i];
    return out;
}

static void to_floats(cgltf_float *out, const double *in, size_t count)
{
    size_t i;
    for (i = 0; i < count; i++)
        out[i] = (cgltf_float)in[i];
}

static cgltf_float *weights_of(model *m, unsigned int what, size_t index, cgltf_size *count)
{
    double *numbers;
    cgltf_float *out;
    check(m, gltf_numbers(m->file, what, index, NULL, 0, count));
    if (*count == 0)
        return NULL;
    numbers = NEW(m, double, *count);
    out = NEW(m, cgltf_float, *count);
    check(m, gltf_numbers(m->file, what, index, numbers, *count, count));
    to_floats(out, numbers, *count);
    return out;
}

/* The bounds of an accessor. Returns whether there are any. */
static cgltf_bool bounds_of(model *m, unsigned int what, size_t index, cgltf_float out[16])
{
    double numbers[16];
    size_t count;
    check(m, gltf_numbers(m->file, what, index, numbers, 16, &count));
    to_floats(out, numbers, count < 16 ? count : 16);
    return count > 0;
}

/* ---- Buffers, views, accessors. */

static void make_buffer(model *m, size_t index)
{
    cgltf_buffer *out = m->data.buffers + index;
    gltf_buffer in;
    check(m, gltf_buffer_info(m->file, index, &in));
    ABOUT(GLTF_BUFFERS)
    out->size = in.byte_length;
    out->uri = text_of(m, GLTF_BUFFER_URI, index);
}

static void make_buffer_view(model *m, size_t index)
{
    cgltf_buffer_view *out = m->data.buffer_views + index;
    gltf_buffer_view in;
    check(m, gltf_buffer_view_info(m->file, index, &in));
    ABOUT(GLTF_BUFFER_VIEWS)
    out->buffer = m->data.buffers + in.buffer;
    out->offset = in.byte_offset;
    out->size = in.byte_length;
    out->stride = in.byte_stride;
    out->type = in.target == 34962 ? cgltf_buffer_view_type_vertices
        : in.target == 34963 ? cgltf_buffer_view_type_indices : cgltf_buffer_view_type_invalid;
}

static cgltf_component_type component_type_of(unsigned int type)
{
    switch (type) {
    case GLTF_I8: return cgltf_component_type_r_8;
    case GLTF_U8: return cgltf_component_type_r_8u;
    case GLTF_I16: return cgltf_component_type_r_16;
    case GLTF_U16: return cgltf_component_type_r_16u;
    case GLTF_U32: return cgltf_component_type_r_32u;
    default: return cgltf_component_type_r_32f;
    }
}

static cgltf_type type_of(const gltf_accessor *in)
{
    static const cgltf_type vectors[] = {
        cgltf_type_invalid, cgltf_type_scalar, cgltf_type_vec2, cgltf_type_vec3, cgltf_type_vec4
    };
    if (!in->is_matrix)
        return vectors[in->components];
    return in->components == 4 ? cgltf_type_mat2 : in->components == 9 ? cgltf_type_mat3
        : cgltf_type_mat4;
}

static void make_accessor(model *m, size_t index)
{
    cgltf_accessor *out = m->data.accessors + index;
    gltf_accessor in;
    check(m, gltf_accessor_info(m->file, index, &in));
    ABOUT(GLTF_ACCESSORS)
    out->component_type = component_type_of(in.component_type);
    out->normalized = (cgltf_bool)in.normalized;
    out->type = type_of(&in);
    out->offset = in.byte_offset;
    out->count = in.count;
    out->buffer_view = AT(m->data.buffer_views, in.view);
    out->stride = out->buffer_view != NULL && out->buffer_view->stride != 0
        ? out->buffer_view->stride : cgltf_calc_size(out->type, out->component_type);
    out->has_min = bounds_of(m, GLTF_ACCESSOR_MIN, index, out->min);
    out->has_max = bounds_of(m, GLTF_ACCESSOR_MAX, index, out->max);
}

/* Puts the padding into items in which cgltf looks for it: each column of a matrix begins at a
 * multiple of four bytes (3.6.2.4). */
static void put_padding(unsigned char *out, const unsigned char *items, const gltf_accessor *in,
                        size_t padded)
{
    size_t columns = !in->is_matrix ? 1 : in->components == 4 ? 2 : in->components == 9 ? 3 : 4;
    size_t size = in->item_size / columns, step = padded / columns, i;
    for (i = 0; i < in->count * columns; i++)
        memcpy(out + i * step, items + i * size, size);
}

/* Gives a sparse accessor a buffer of its own with its items, once all buffers have their bytes. */
static void make_sparse(model *m, size_t index)
{
    cgltf_accessor *out = m->data.accessors + index;
    gltf_accessor in;
    gltf_status status;
    size_t padded = cgltf_calc_size(out->type, out->component_type);
    unsigned char *items;
    check(m, gltf_accessor_info(m->file, index, &in));
    if (in.sparse == 0)
        return;
    if (in.count > (size_t)-1 / 64)
        fail(m, cgltf_result_out_of_memory);
    out->buffer_view = NEW(m, cgltf_buffer_view, 1);
    out->buffer_view->buffer = NEW(m, cgltf_buffer, 1);
    out->buffer_view->size = out->buffer_view->buffer->size = in.count * padded;
    out->buffer_view->buffer->data = allocate(m, in.count, padded);
    out->offset = 0;
    out->stride = padded;
    items = padded == in.item_size ? (unsigned char *)out->buffer_view->buffer->data
        : NEW(m, unsigned char, in.count * in.item_size);
    status = gltf_accessor_read(m->file, index, items, in.count * in.item_size);
    if (status != GLTF_SUCCESS)
        fail(m, cgltf_result_data_too_short);
    if (padded != in.item_size)
        put_padding((unsigned char *)out->buffer_view->buffer->data, items, &in, padded);
}

/* ---- Meshes. */

static cgltf_attribute *attributes_of(model *m, size_t mesh, size_t primitive, size_t target,
                                      cgltf_size *count)
{
    static const cgltf_attribute_type types[] = {
        cgltf_attribute_type_position, cgltf_attribute_type_normal, cgltf_attribute_type_tangent,
        cgltf_attribute_type_color, cgltf_attribute_type_texcoord, cgltf_attribute_type_joints,
        cgltf_attribute_type_weights, cgltf_attribute_type_custom
    };
    gltf_attribute in;
    cgltf_attribute *out;
    size_t i, length;
    while (gltf_attribute_info(m->file, mesh, primitive, target, *count, &in) == GLTF_SUCCESS)
        ++*count;
    out = NEW(m, cgltf_attribute, *count);
    for (i = 0; i < *count; i++) {
        char *name;
        check(m, gltf_attribute_info(m->file, mesh, primitive, target, i, &in));
        check(m, gltf_attribute_name(m->file, mesh, primitive, target, i, NULL, 0, &length));
        name = NEW(m, char, length + 1);
        check(m, gltf_attribute_name(m->file, mesh, primitive, target, i, name, length + 1,
                                     &length));
        out[i].name = spelled(m, name, length);
        out[i].type = types[in.meaning];
        out[i].index = (cgltf_int)in.set;
        out[i].data = m->data.accessors + in.accessor;
    }
    return out;
}

static void make_primitive(model *m, size_t mesh, size_t index, cgltf_primitive *out)
{
    gltf_primitive in;
    size_t i, material;
    check(m, gltf_primitive_info(m->file, mesh, index, &in));
    out->type = (cgltf_primitive_type)in.mode;
    out->indices = AT(m->data.accessors, in.indices);
    out->material = AT(m->data.materials, in.material);
    out->attributes = attributes_of(m, mesh, index, GLTF_NONE, &out->attributes_count);
    out->targets = NEW(m, cgltf_morph_target, in.targets);
    out->targets_count = in.targets;
    for (i = 0; i < in.targets; i++)
        out->targets[i].attributes = attributes_of(m, mesh, index, i,
                                                   &out->targets[i].attributes_count);
    out->mappings = NEW(m, cgltf_material_mapping, m->data.variants_count);
    for (i = 0; i < m->data.variants_count; i++)
        if (gltf_variant_material(m->file, mesh, index, i, &material) == GLTF_SUCCESS) {
            if (material >= m->data.materials_count)
                fail(m, cgltf_result_invalid_gltf);
            out->mappings[out->mappings_count].variant = i;
            out->mappings[out->mappings_count++].material = m->data.materials + material;
        }
    out->extras = extras_of(m, GLTF_PRIMITIVES, mesh, index);
    out->extensions = extensions_of(m, GLTF_PRIMITIVES, mesh, index, &out->extensions_count);
}

static void make_mesh(model *m, size_t index)
{
    cgltf_mesh *out = m->data.meshes + index;
    gltf_mesh in;
    size_t i;
    check(m, gltf_mesh_info(m->file, index, &in));
    ABOUT(GLTF_MESHES)
    out->primitives = NEW(m, cgltf_primitive, in.primitives);
    out->primitives_count = in.primitives;
    for (i = 0; i < in.primitives; i++)
        make_primitive(m, index, i, out->primitives + i);
    out->weights = weights_of(m, GLTF_MESH_WEIGHTS, index, &out->weights_count);
    target_names(m, out);
}

/* ---- Materials, textures, images. */

static void make_use(model *m, cgltf_texture_view *out, const gltf_texture_use *in)
{
    if (in->texture == GLTF_NONE)
        return;
    out->texture = m->data.textures + in->texture;
    out->texcoord = (cgltf_int)in->tex_coord;
    out->scale = (cgltf_float)in->scale;
    out->has_transform = (cgltf_bool)in->has_transform;
    to_floats(out->transform.offset, in->offset, 2);
    to_floats(out->transform.scale, in->size, 2);
    out->transform.rotation = (cgltf_float)in->rotation;
}

/* The extensions of a material that gltf.h has members for. */
static void make_extensions(model *m, cgltf_material *out, const gltf_material *in)
{
    if ((out->has_pbr_specular_glossiness = (in->has & GLTF_SPECULAR_GLOSSINESS) != 0)) {
        cgltf_pbr_specular_glossiness *it = &out->pbr_specular_glossiness;
        to_floats(it->diffuse_factor, in->diffuse_factor, 4);
        to_floats(it->specular_factor, in->specular_glossiness_factor, 3);
        it->glossiness_factor = (cgltf_float)in->glossiness_factor;
        make_use(m, &it->diffuse_texture, &in->diffuse);
        make_use(m, &it->specular_glossiness_texture, &in->specular_glossiness);
    }
    if ((out->has_transmission = (in->has & GLTF_TRANSMISSION) != 0)) {
        out->transmission.transmission_factor = (cgltf_float)in->transmission_factor;
        make_use(m, &out->transmission.transmission_texture, &in->transmission);
    }
    if ((out->has_ior = (in->has & GLTF_IOR) != 0))
        out->ior.ior = (cgltf_float)in->ior;
    if ((out->has_emissive_strength = (in->has & GLTF_EMISSIVE_STRENGTH) != 0))
        out->emissive_strength.emissive_strength = (cgltf_float)in->emissive_strength;
    if ((out->has_volume = (in->has & GLTF_VOLUME) != 0)) {
        out->volume.thickness_factor = (cgltf_float)in->thickness_factor;
        out->volume.attenuation_distance = in->attenuation_distance > FLT_MAX ? FLT_MAX
            : (cgltf_float)in->attenuation_distance;
        to_floats(out->volume.attenuation_color, in->attenuation_color, 3);
        make_use(m, &out->volume.thickness_texture, &in->thickness);
    }
    if ((out->has_specular = (in->has & GLTF_SPECULAR) != 0)) {
        out->specular.specular_factor = (cgltf_float)in->specular_factor;
        to_floats(out->specular.specular_color_factor, in->specular_color_factor, 3);
        make_use(m, &out->specular.specular_texture, &in->specular);
        make_use(m, &out->specular.specular_color_texture, &in->specular_color);
    }
}

static void make_material(model *m, size_t index)
{
    cgltf_material *out = m->data.materials + index;
    cgltf_pbr_metallic_roughness *pbr = &out->pbr_metallic_roughness;
    gltf_material in;
    check(m, gltf_material_info(m->file, index, &in));
    ABOUT(GLTF_MATERIALS)
    out->has_pbr_metallic_roughness = (in.has & GLTF_METALLIC_ROUGHNESS) != 0;
    to_floats(pbr->base_color_factor, in.base_color_factor, 4);
    pbr->metallic_factor = (cgltf_float)in.metallic_factor;
    pbr->roughness_factor = (cgltf_float)in.roughness_factor;
    make_use(m, &pbr->base_color_texture, &in.base_color);
    make_use(m, &pbr->metallic_roughness_texture, &in.metallic_roughness);
    make_use(m, &out->normal_texture, &in.normal);
    make_use(m, &out->occlusion_texture, &in.occlusion);
    make_use(m, &out->emissive_texture, &in.emissive);
    to_floats(out->emissive_factor, in.emissive_factor, 3);
    out->alpha_mode = (cgltf_alpha_mode)in.alpha_mode;
    out->alpha_cutoff = (cgltf_float)in.alpha_cutoff;
    out->double_sided = (cgltf_bool)in.double_sided;
    out->unlit = (in.has & GLTF_UNLIT) != 0;
    make_extensions(m, out, &in);
    parse_layers(m, out, index);
}

static void make_image(model *m, size_t index)
{
    cgltf_image *out = m->data.images + index;
    gltf_image in;
    check(m, gltf_image_info(m->file, index, &in));
    ABOUT(GLTF_IMAGES)
    out->uri = text_of(m, GLTF_IMAGE_URI, index);
    out->mime_type = text_of(m, GLTF_IMAGE_MIME_TYPE, index);
    out->buffer_view = AT(m->data.buffer_views, in.view);
}

static void make_sampler(model *m, size_t index)
{
    cgltf_sampler *out = m->data.samplers + index;
    gltf_sampler in;
    check(m, gltf_sampler_info(m->file, index, &in));
    ABOUT(GLTF_SAMPLERS)
    out->mag_filter = (cgltf_int)in.mag_filter;
    out->min_filter = (cgltf_int)in.min_filter;
    out->wrap_s = (cgltf_int)in.wrap_s;
    out->wrap_t = (cgltf_int)in.wrap_t;
}

static void make_texture(model *m, size_t index)
{
    cgltf_texture *out = m->data.textures + index;
    gltf_texture in;
    check(m, gltf_texture_info(m->file, index, &in));
    ABOUT(GLTF_TEXTURES)
    out->image = AT(m->data.images, in.image);
    out->sampler = AT(m->data.samplers, in.sampler);
}

/* ---- Scenes, nodes, skins, cameras, lights, animations. */

static void make_scene(model *m, size_t index)
{
    cgltf_scene *out = m->data.scenes + index;
    ABOUT(GLTF_SCENES)
    out->nodes = nodes_of(m, GLTF_SCENE_NODES, index, &out->nodes_count);
}

static void make_node(model *m, size_t index)
{
    cgltf_node *out = m->data.nodes + index;
    gltf_node in;
    size_t i;
    check(m, gltf_node_info(m->file, index, &in));
    ABOUT(GLTF_NODES)
    out->mesh = AT(m->data.meshes, in.mesh);
    out->skin = AT(m->data.skins, in.skin);
    out->camera = AT(m->data.cameras, in.camera);
    out->light = AT(m->data.lights, in.light);
    out->children = nodes_of(m, GLTF_NODE_CHILDREN, index, &out->children_count);
    for (i = 0; i < out->children_count; i++) {
        if (out->children[i]->parent != NULL)
            fail(m, cgltf_result_invalid_gltf);
        out->children[i]->parent = out;
    }
    out->weights = weights_of(m, GLTF_NODE_WEIGHTS, index, &out->weights_count);
    out->has_matrix = (in.has & GLTF_HAS_MATRIX) != 0;
    out->has_translation = (in.has & GLTF_HAS_TRANSLATION) != 0;
    out->has_rotation = (in.has & GLTF_HAS_ROTATION) != 0;
    out->has_scale = (in.has & GLTF_HAS_SCALE) != 0;
    to_floats(out->matrix, in.matrix, 16);
    to_floats(out->translation, in.translation, 3);
    to_floats(out->rotation, in.rotation, 4);
    to_floats(out->scale, in.scale, 3);
}

static void make_skin(model *m, size_t index)
{
    cgltf_skin *out = m->data.skins + index;
    gltf_skin in;
    check(m, gltf_skin_info(m->file, index, &in));
    ABOUT(GLTF_SKINS)
    out->joints = nodes_of(m, GLTF_SKIN_JOINTS, index, &out->joints_count);
    out->skeleton = AT(m->data.nodes, in.skeleton);
    out->inverse_bind_matrices = AT(m->data.accessors, in.inverse_bind_matrices);
}

static void make_camera(model *m, size_t index)
{
    cgltf_camera *out = m->data.cameras + index;
    gltf_camera in;
    check(m, gltf_camera_info(m->file, index, &in));
    ABOUT(GLTF_CAMERAS)
    if (in.orthographic) {
        out->type = cgltf_camera_type_orthographic;
        out->data.orthographic.xmag = (cgltf_float)in.xmag;
        out->data.orthographic.ymag = (cgltf_float)in.ymag;
        out->data.orthographic.zfar = (cgltf_float)in.zfar;
        out->data.orthographic.znear = (cgltf_float)in.znear;
    } else {
        out->type = cgltf_camera_type_perspective;
        out->data.perspective.has_aspect_ratio = in.aspect_ratio != 0;
        out->data.perspective.aspect_ratio = (cgltf_float)in.aspect_ratio;
        out->data.perspective.yfov = (cgltf_float)in.yfov;
        out->data.perspective.has_zfar = in.zfar != 0;
        out->data.perspective.zfar = (cgltf_float)in.zfar;
        out->data.perspective.znear = (cgltf_float)in.znear;
    }
}

static void make_light(model *m, size_t index)
{
    cgltf_light *out = m->data.lights + index;
    gltf_light in;
    check(m, gltf_light_info(m->file, index, &in));
    out->name = name_of(m, GLTF_LIGHTS, index);
    out->type = (cgltf_light_type)(in.type + 1);
    to_floats(out->color, in.color, 3);
    out->intensity = (cgltf_float)in.intensity;
    out->range = (cgltf_float)in.range;
    out->spot_inner_cone_angle = (cgltf_float)in.inner_cone_angle;
    out->spot_outer_cone_angle = (cgltf_float)in.outer_cone_angle;
    out->extras = extras_of(m, GLTF_LIGHTS, index, 0);
}

static void make_variant(model *m, size_t index)
{
    m->data.variants[index].name = name_of(m, GLTF_VARIANTS, index);
}

static void make_animation(model *m, size_t index)
{
    static const cgltf_interpolation_type interpolations[] = {
        cgltf_interpolation_type_linear, cgltf_interpolation_type_step,
        cgltf_interpolation_type_cubic_spline
    };
    cgltf_animation *out = m->data.animations + index;
    gltf_animation in;
    gltf_channel channel;
    size_t i;
    check(m, gltf_animation_info(m->file, index, &in));
    ABOUT(GLTF_ANIMATIONS)
    out->channels = NEW(m, cgltf_animation_channel, in.channels);
    out->channels_count = in.channels;
    out->samplers = NEW(m, cgltf_animation_sampler, in.samplers);
    out->samplers_count = in.samplers;
    for (i = 0; i < in.samplers; i++)
        out->samplers[i].extras = extras_of(m, GLTF_ANIMATION_SAMPLERS, index, i);
    /* A sampler is known by its channels: one that no channel has is left empty. */
    for (i = 0; i < in.channels; i++) {
        check(m, gltf_channel_info(m->file, index, i, &channel));
        out->channels[i].sampler = out->samplers + channel.sampler;
        out->channels[i].sampler->input = m->data.accessors + channel.input;
        out->channels[i].sampler->output = m->data.accessors + channel.output;
        out->channels[i].sampler->interpolation = interpolations[channel.interpolation];
        out->channels[i].target_node = AT(m->data.nodes, channel.node);
        out->channels[i].target_path = (cgltf_animation_path_type)(channel.path + 1);
        out->channels[i].extras = extras_of(m, GLTF_CHANNELS, index, i);
    }
}

#endif
