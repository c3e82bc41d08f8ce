// As much of JSON Schema as the report's schema uses.

const TYPES = {
  object: (value) => value !== null && typeof value === "object" && !Array.isArray(value),
  array: Array.isArray,
  string: (value) => typeof value === "string",
  integer: Number.isInteger,
  null: (value) => value === null,
};

/** What of a value breaks a schema. @param {any} schema @param {any} value @param {any} [part] @param {string} [path] @returns {string[]} */
export function breaches(schema, value, part = schema, path = "document") {
  if (part.$ref) return breaches(schema, value, part.$ref.slice(2).split("/").reduce((at, key) => at[key], schema), path);
  const below = (item, of, name) => breaches(schema, item, of, `${path}${name}`);
  const types = part.type === undefined ? [] : [part.type].flat();
  const found = [];
  if (types.length > 0 && !types.some((type) => TYPES[type](value))) return [`${path} is no ${types}`];
  if (part.enum && !part.enum.includes(value)) found.push(`${path} is none of ${part.enum}`);
  if (part.const !== undefined && value !== part.const) found.push(`${path} isn't ${part.const}`);
  if (part.minimum > value || part.maximum < value) found.push(`${path} is out of range`);
  if (part.pattern && !new RegExp(part.pattern).test(value)) found.push(`${path} doesn't match`);
  if (part.oneOf && part.oneOf.filter((one) => breaches(schema, value, one, path).length === 0).length !== 1) found.push(`${path} is none of its forms`);
  if (Array.isArray(value)) {
    if (part.minItems > value.length || part.maxItems < value.length) found.push(`${path} has ${value.length} items`);
    value.forEach((item, index) => {
      const of = part.prefixItems?.[index] ?? part.items;
      if (of) found.push(...below(item, of, `[${index}]`));
    });
  } else if (TYPES.object(value)) {
    for (const name of part.required ?? []) if (!Object.hasOwn(value, name)) found.push(`${path}.${name} lacks`);
    for (const [name, of] of Object.entries(part.properties ?? {})) if (Object.hasOwn(value, name)) found.push(...below(value[name], of, `.${name}`));
  }
  return found;
}
