// Completions of shells for the command line: commands, each with the forms of its options, and then files.

function bash(commands) {
  const names = commands.map(([name]) => name).join(' ');
  return [
    '# Completion of bash for simplecss: source it in ~/.bashrc.',
    '_simplecss() {',
    '    local word=${COMP_WORDS[COMP_CWORD]} words=',
    '    case $COMP_CWORD/${COMP_WORDS[1]} in',
    `        1/*) words='${names} --help --version' ;;`,
    ...commands.map(([name, forms]) => `        */${name}) words='${forms.join(' ')}' ;;`),
    '    esac',
    '    if [[ $COMP_CWORD == 1 || $word == -* ]]; then',
    '        COMPREPLY=($(compgen -W "$words" -- "$word"))',
    '    else',
    '        compopt -o filenames 2>/dev/null',
    '        COMPREPLY=($(compgen -f -- "$word"))',
    '    fi',
    '}',
    'complete -F _simplecss simplecss',
  ].join('\n');
}

function zsh(commands) {
  return [
    '#compdef simplecss',
    '# Completion of zsh for simplecss: a file _simplecss in a folder of $fpath.',
    `if (( CURRENT == 2 )); then compadd -- ${commands.map(([name]) => name).join(' ')}; return; fi`,
    'case $words[2] in',
    ...commands.map(([name, forms]) => `    ${name}) [[ $PREFIX == -* ]] && compadd -- ${forms.join(' ')} ;;`),
    'esac',
    '_files',
  ].join('\n');
}

function fish(commands) {
  const front = 'complete -c simplecss', lines = ['# Completion of fish for simplecss: ~/.config/fish/completions/simplecss.fish.'];
  for (const [name, forms] of commands) {
    lines.push(`${front} -n __fish_use_subcommand -f -a ${name}`);
    const within = `${front} -n '__fish_seen_subcommand_from ${name}'`;
    lines.push(...forms.map(form => `${within} -l ${form.slice(2)}`));
  }
  return lines.join('\n');
}

/** How a completion is written, by the shell. */
export const SHELLS = { bash, zsh, fish };
