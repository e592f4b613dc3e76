# Cuts hookhost's main.rt to what needs no repository, so that neither the commands on one nor the database are built.
s/LookUp(asked) => look_up(rt, asked),/LookUp(_) => Ok(DONE),/
s/Update(update) => change(rt, update),/Update(_) => Ok(DONE),/
/^ *init(rt).map_err(CommandStop::NoNewRepository)?;$/d
