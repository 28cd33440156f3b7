// Starts rpcls for documents of the Sun RPC language, by the settings of package.json.
const { workspace } = require('vscode');
const { LanguageClient } = require('vscode-languageclient/node');

let client;

exports.activate = () => {
  const setting = (name) => workspace.getConfiguration('rpcls').get(name);
  // What the command line can say is said there, since it counts for the files of `known` too.
  const args = setting('known').flatMap((file) => ['--known', file]);
  if (setting('cTypes')) args.push('--c-types');
  if (setting('foreign')) args.push('--foreign');
  if (setting('directives') === 'fault') args.push('--fault-directives');
  client = new LanguageClient('rpcls', 'rpcls', { command: setting('path'), args }, {
    documentSelector: ['file', 'untitled'].map((scheme) => ({ scheme, language: 'rpcgen' })),
    initializationOptions: { warnings: setting('warnings'), most: setting('most') },
  });
  return client.start();
};

exports.deactivate = () => client?.stop();
